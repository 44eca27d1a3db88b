"""Tests that the comparison tells what it has to: answers turned round, entries that don't fit, rules turned round."""
import copy
import os
import shutil
import subprocess
import sys
import tempfile
from multiprocessing import Pool

import tables
from comparing import compare
from entries import EntryFault, read_entries
from frr_rules import FRR_RULES
from labs import STORED, Lab, LabFault, folder_of
from turned_rules import TURNED

ABOVE = os.path.dirname(os.path.dirname(STORED))
SIDE_BY_SIDE = 2
PLAIN, DEPARTING, REFUSED = "policy-next-hop-self", "third-party", "disagree"


def copied(name, into):
    """A copy of a stored lab."""
    return shutil.copytree(folder_of(name), os.path.join(into, name))


def without_row(dump):
    del dump["routers"]["r2"]["rib"]["10.9.0.0/24"]


def with_row(dump):
    dump["routers"]["r4"]["rib"]["10.9.0.0/24"] = dump["routers"]["r2"]["rib"]["10.9.0.0/24"]


def other_hop(dump):
    dump["routers"]["r2"]["rib"]["10.9.0.0/24"]["hops"][0]["active"] = False


def not_best(dump):
    dump["routers"]["r2"]["bgp"]["10.9.0.0/24"][0]["best"] = False


def not_valid(dump):
    dump["routers"]["r2"]["bgp"]["10.9.0.0/24"][0]["valid"] = False


def session_down(dump):
    dump["routers"]["r2"]["sessions"]["10.0.12.1"] = False


def probe_of(dump):
    return next(probe for probe in dump["probes"] if probe[:2] == ["r2", "10.9.0.1"])


def no_flow(dump):
    probe_of(dump)[3] = 0


def one_flow_lost(dump):
    probe_of(dump)[3] -= 1


TURNS = {without_row: "rib r2 10.9.0.0/24", with_row: "rib r4 10.9.0.0/24", other_hop: "rib r2 10.9.0.0/24 via 10.0.12.1",
         not_best: "bgp r2 10.9.0.0/24", not_valid: "bgp r2 10.9.0.0/24 from 10.0.12.1", session_down: "session r2 10.0.12.1",
         no_flow: "reach r2 10.9.0.1", one_flow_lost: "every r2 10.9.0.1"}


def answers():
    """Each stored answer that is turned round is told by its question."""
    with tempfile.TemporaryDirectory() as folder:
        lab = copied(PLAIN, folder)
        path = os.path.join(lab, "tables.json")
        dump = Lab(lab).tables()
        for turn, question in TURNS.items():
            turned = copy.deepcopy(dump)
            turn(turned)
            tables.store(path, turned)
            told = [line.split(": ")[0] for line in compare(lab).failures]
            yield f"an answer turned round: {question}", [] if question in told else [f"told: {told}"]
        tables.store(path, {**dump, "stable": False})
        yield "tables that hadn't come to rest", [] if compare(lab).failures else ["not told"]
        tables.store(path, dump)
        yield "the same answers again", compare(lab).failures


def rewritten(name, change):
    """What fails in a copy of a lab whose entries were changed, or what is wrong with them."""
    with tempfile.TemporaryDirectory() as folder:
        lab = copied(name, folder)
        path = os.path.join(lab, "differences")
        text = ""
        if os.path.exists(path):
            with open(path, encoding="utf-8") as file:
                text = file.read()
        with open(path, "w", encoding="utf-8") as file:
            file.write(change(text))
        try:
            return compare(lab).failures
        except EntryFault as fault:
            return [str(fault)]


def told_by(failures, words):
    return [] if any(words in line for line in failures) else [f"told: {failures}"]


EXTRA = "begun: something\n    rib r2 10.9.0.0/24: FRR present, NetCov absent\n"
ENTRY_FAULTS = {
    "an entry without a colon": "begun: something\n    rib r2 10.9.0.0/24 FRR present\n",
    "an entry without a rule": "    rib r2 10.9.0.0/24: FRR present, NetCov absent\n",
    "an entry of equal answers": "begun: something\n    rib r2 10.9.0.0/24: FRR present, NetCov present\n",
    "an entry that is told twice": EXTRA + "    rib r2 10.9.0.0/24: FRR present, NetCov absent\n",
    "a rule without a departure": "begun\n    rib r2 10.9.0.0/24: FRR present, NetCov absent\n",
}


def entries():
    """Entries that don't fit the differences, and such as can't be read."""
    told = sorted(read_entries(os.path.join(folder_of(DEPARTING), "differences")))[0]
    lost = rewritten(DEPARTING, lambda text: "".join(line for line in text.splitlines(True) if told + ":" not in line))
    yield "a difference without an entry", told_by(lost, f"{told}: FRR")
    swapped = rewritten(DEPARTING, lambda text: text.replace("present", "p").replace("absent", "present").replace("p,", "absent,").replace("p\n", "absent\n"))
    yield "entries the wrong way", told_by(swapped, "told otherwise")
    yield "an entry without a difference", told_by(rewritten(PLAIN, lambda text: EXTRA), "an entry, and no difference")
    other = EXTRA.replace("r2", "r9")
    yield "an entry without a question", told_by(rewritten(PLAIN, lambda text: other), "an entry, and no such question")
    yield "a refusal without an entry", told_by(rewritten(REFUSED, lambda text: ""), "every question")
    yield "another refusal", told_by(rewritten(REFUSED, lambda text: text.replace("256", "255")), "every question")
    for what, text in ENTRY_FAULTS.items():
        yield what, told_by(rewritten(PLAIN, lambda _, text=text: text), "differences:")


def under(edits, lab):
    """(status, what is said) of the comparison of a lab under a copy of the oracle with texts of its modules replaced."""
    with tempfile.TemporaryDirectory() as folder:
        shutil.copytree(ABOVE, os.path.join(folder, "oracle"), ignore=shutil.ignore_patterns("labs", "__pycache__"))
        for module, text, other in edits:
            path = os.path.join(folder, "oracle", module)
            with open(path, encoding="utf-8") as file:
                whole = file.read()
            if text not in whole:
                return None, f"{module} has no such text: {text}"
            with open(path, "w", encoding="utf-8") as file:
                file.write(whole.replace(text, other))
        done = subprocess.run([sys.executable, os.path.join(folder, "oracle", "frr", "compare"), lab], stdout=subprocess.PIPE,
                              stderr=subprocess.STDOUT, text=True, check=False)
    return done.returncode, done.stdout


def told_rule(turned):
    """What isn't as it must be where a rule is turned round: its lab has to fail."""
    _, module, text, wrong, lab = turned
    status, said = under([(module, text, wrong)], os.path.join(STORED, lab))
    return [] if status == 1 and said.startswith("failed ") else [f"{lab} holds: {said.strip()[-300:]}"]


def alike(shown):
    """What isn't as it must be where FRRouting's rules stand in the oracle: without any entry, the lab that shows the departures has to hold."""
    lab, departures = shown
    with tempfile.TemporaryDirectory() as folder:
        copied(lab, folder)
        os.remove(os.path.join(folder, lab, "differences"))
        status, said = under([edit for words in departures for edit in FRR_RULES[words]], os.path.join(folder, lab))
    return [] if status == 0 else [said.strip()]


def rules():
    """Each rule that is turned round in the oracle is told by its lab."""
    with Pool(SIDE_BY_SIDE) as pool:
        for turned, wrong in zip(TURNED, pool.imap(told_rule, TURNED)):
            yield f"a rule turned round: {turned[0]} ({turned[4]})", wrong


def departures(results):
    """The departures that a lab shows are its whole difference to FRRouting, but for a network that is refused."""
    shown = [(result.name, sorted(words for _, words in result.departures)) for result in results if result.departures and result.name != REFUSED]
    yield "each departure has FRRouting's rule", sorted({words for _, some in shown for words in some} ^ set(FRR_RULES))
    with Pool(SIDE_BY_SIDE) as pool:
        for (lab, some), wrong in zip(shown, pool.imap(alike, shown)):
            yield f"FRRouting's rule in place: {'; '.join(some)} ({lab})", wrong


def lab_faults():
    """Labs that can't be read."""
    cases = [("r1.cfg", "hostname r1\nrouter bgp 65001\n", "of other files"), ("lab.json", '{"net": 1}', "its keys are"), ("lab.json", "{", "lab.json: "), ("r1.cfg", "router ospf 1\n", "line 1 is refused: unsupported"),
             ("r2.cfg", "hostname r1\n", "same-name"), ("tables.json", "[]", "not what run_lab writes"), ("r2.cfg", "hostname other\n", "of other routers")]
    for name, text, words in cases:
        with tempfile.TemporaryDirectory() as folder:
            lab = copied(PLAIN, folder)
            with open(os.path.join(lab, name), "w", encoding="utf-8") as file:
                file.write(text)
            try:
                yield f"a lab with a wrong {name}", told_by(compare(lab).failures, words)
            except LabFault as fault:
                yield f"a lab with a wrong {name}", told_by([str(fault)], words)
