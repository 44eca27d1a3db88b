#!/usr/bin/env python3
"""Compares the built program with the oracle over many cases, and shrinks each difference.

A kind of cases is random, of which COUNT cases are made, or systematic (table makes COUNT random changes besides). The
kind random is all random ones, and all is all but facts. A difference goes to a folder of its own, which is printed.
At the end stands what was reached, and last how many cases passed. The status is 1 where a case differs.
"""
import argparse
import collections
import os
import random
import shlex
import shutil
import subprocess
import sys
import tempfile

import oracle
from cases import RANDOM_KINDS, grid_cases, limit_cases, table_cases
from exchanges import exchange_cases
from filtered import filter_cases
from most_facts import facts_cases
from pieces import R, Case
from peers import peer_cases
from policies import policy_cases

HERE = os.path.dirname(os.path.abspath(__file__))
BUILT = os.path.join(os.path.dirname(HERE), "crates", "netcov", "out", "netcov")
SYSTEMATIC = {"table": table_cases, "grid": grid_cases, "policies": policy_cases, "processes": peer_cases,
              "exchanges": exchange_cases, "lists": filter_cases, "limits": limit_cases, "facts": facts_cases}
compared = []
reached = collections.Counter()
total = collections.Counter()
differences = []


def program(words, session):
    child = subprocess.run(compared + list(words), input=session, stdout=subprocess.PIPE, stderr=subprocess.PIPE, timeout=300)
    return child.returncode, child.stdout


def both(case, top):
    """What the oracle and the program answer, each as status and bytes, in the folder top."""
    for name in os.listdir(top):
        path = os.path.join(top, name)
        shutil.rmtree(path) if os.path.isdir(path) and not os.path.islink(path) else os.unlink(path)
    for name, data in case.files.items():
        path = os.path.join(top.encode(), name)
        if data is None:
            os.mkdir(path)
        else:
            with open(path, "wb") as file:
                file.write(data)
    os.chdir(top)
    return oracle.run(case.words, case.session), program(case.words, case.session)


def differs(case, top):
    want, got = both(case, top)
    return want != got


def pieces(data, unit):
    if unit == "line":
        return [x + b"\n" for x in data.split(b"\n")[:-1]] + ([data.split(b"\n")[-1]] if data.split(b"\n")[-1] else [])
    if unit == "word":
        out, word = [], b""
        for c in data:
            b = bytes([c])
            if b in b" \t\n":
                out += [word] if word else []
                out.append(b)
                word = b""
            else:
                word += b
        return out + ([word] if word else [])
    return [bytes([c]) for c in data]


def shrink(case, top):
    tries = 0
    for unit in ("file", "line", "word", "byte"):
        changed = True
        while changed and tries < 4000:
            changed = False
            if unit == "file":
                for k in range(len(case.words)):
                    smaller = Case(case.files, case.words[:k] + case.words[k + 1:], case.session)
                    tries += 1
                    if differs(smaller, top):
                        case, changed = smaller, True
                        break
                continue
            for place in [None] + [n for n in case.files if case.files[n] is not None]:
                data = case.session if place is None else case.files[place]
                parts = pieces(data, unit)
                step = max(1, len(parts) // 2)
                while step >= 1 and tries < 4000:
                    k = 0
                    while k < len(parts):
                        shorter = parts[:k] + parts[k + step:]
                        new = b"".join(shorter)
                        files = case.files if place is None else {**case.files, place: new}
                        smaller = Case(files, case.words, new if place is None else case.session)
                        tries += 1
                        if differs(smaller, top):
                            case, parts, changed = smaller, shorter, True
                        else:
                            k += step
                        if tries >= 4000:
                            break
                    step //= 2
    return case


def note_tests(session, replies):
    """Which tests are accepted, and which are absent."""
    replies = iter(replies)
    for w in [oracle.words(line) for line in oracle.served(session)[0] if len(line) <= oracle.LIMIT_LINE]:
        if not w or oracle.asked_for(w) is None:
            continue
        absent = b"refused absent " + b" ".join(w)
        refused = [absent, b"refused router " + w[1], b"refused line", b"refused limit tests", b"refused limit facts"]
        reply = next((x for x in replies if x in refused or x.startswith(b"test ")), None)
        if reply not in refused[1:] + [None]:
            form = w[:1] if w[0] == b"flow" else w[:1] + w[3:4]
            reached[f"{'absent' if reply == absent else 'accepted'} {b' '.join(form).decode()}"] += 1


def note(status, out, kind, session):
    total[kind] += 1
    if status == 0:
        reached[f"{kind}: status 0"] += 1
        note_tests(session, out.split(b"\n"))
        for line in out.split(b"\n"):
            w = line.split(b" ")
            if w[0] == b"test":
                reached["reply test"] += 1
            elif w[0] == b"strong" and w[3] != b"0":
                reached["report with weak lines"] += 1
            elif w[0] == b"cut":
                reached["reply cut of " + w[2].decode()] += 1
            elif w[0] == b"suite":
                reached["reply suite of " + ("few" if len(w) < 4 else "several") + " tests" if w[1:] else "reply suite of none"] += 1
            elif w[0] == b"dead":
                reached["reply dead of " + ("none" if w[1] == b"0" else "some")] += 1
            elif w[0] == b"refused":
                reached["reply " + (b" ".join(w[:3]) if w[1] == b"limit" else b" ".join(w[:2])).decode()] += 1
    else:
        w = out.strip(b"\n").split(b" ")
        reached[f"status {status} " + ("" if not out else (w[-1] if w[1] == b"config" else b" ".join(w[:4])).decode(errors="replace"))] += 1


def check(case, kind, top):
    want, got = both(case, top)
    note(*want, kind, case.session)
    if want == got:
        return True
    small = shrink(case, top) if sum(len(d or b"") for d in case.files.values()) + len(case.session) < 20000 else case
    want, got = both(small, top)
    seen = (want, got)
    if seen not in differences and len(differences) < 60:
        differences.append(seen)
        path = os.path.join(tempfile.mkdtemp(prefix=f"netcov-{kind}-"), "difference")
        with open(path, "w") as file:
            file.write(f"words   {small.words!r}\n")
            for name, data in small.files.items():
                file.write(f"file    {name!r}: {data if data is None or len(data) < 3000 else (len(data), data[:200])!r}\n")
            file.write(f"session {small.session if len(small.session) < 3000 else (len(small.session), small.session[-200:])!r}\n")
            file.write(f"oracle  {want[0]} {want[1][:600]!r}\nprogram {got[0]} {got[1][:600]!r}\n")
        print("DIFFERENCE", path)
        print(open(path).read(), flush=True)
    return False


def cases_of(kind, count):
    """The cases of a kind."""
    if kind in RANDOM_KINDS:
        return (RANDOM_KINDS[kind]() for _ in range(count))
    return SYSTEMATIC[kind](count) if kind == "table" else SYSTEMATIC[kind]()


def kinds_of(kind):
    """The kinds that a word means."""
    several = {"all": [it for it in SYSTEMATIC if it != "facts"] + list(RANDOM_KINDS), "random": list(RANDOM_KINDS)}
    return several.get(kind, [kind])


def words_given():
    """The words of the command line."""
    words = argparse.ArgumentParser(description=__doc__, formatter_class=argparse.RawDescriptionHelpFormatter)
    kinds = ["all", "random", *RANDOM_KINDS, *SYSTEMATIC]
    words.add_argument("kind", metavar="KIND", choices=kinds, help="one of " + ", ".join(kinds))
    words.add_argument("count", metavar="COUNT", nargs="?", type=int, default=1000, help="how many random cases of a kind (1000)")
    words.add_argument("seed", metavar="SEED", nargs="?", type=int, default=random.SystemRandom().randrange(10**9), help="a number from which the cases follow")
    words.add_argument("--program", default=os.environ.get("NETCOV", BUILT), help="the command that is compared (what the variable NETCOV names, or the built program)")
    given = words.parse_args()
    compared[:] = [os.path.abspath(it).encode() if os.path.exists(it) else it.encode() for it in shlex.split(given.program)]
    if not compared or shutil.which(compared[0]) is None:
        words.error(f"there is no program {given.program}")
    return given


def main():
    given = words_given()
    R.seed(given.seed)
    print(f"{given.kind} {given.count} seed {given.seed}", flush=True)
    bad = collections.Counter()
    top = tempfile.mkdtemp(prefix="netcov-cases-")
    try:
        for k in kinds_of(given.kind):
            for case in cases_of(k, given.count):
                bad[k] += not check(case, k, top)
    finally:
        os.chdir(HERE)
        shutil.rmtree(top)
    for k in sorted(total):
        print(f"{k}: {total[k]} cases, {bad[k]} differ")
    for k in sorted(reached):
        print(f"    {reached[k]:8} {k}")
    print(f"{sum(total.values()) - sum(bad.values())} passed, {sum(bad.values())} failed")
    return 1 if sum(bad.values()) else 0


if __name__ == "__main__":
    sys.exit(main())
