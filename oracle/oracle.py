#!/usr/bin/env python3
"""A slow second NetCov, written from the rules alone, to compare the program with.

    python3 oracle/oracle.py FILE.. < session

It has the statements and the commands that the program serves, and works everything out from lists, by filters. As a
module, run(words, session) gives the status and the bytes.
"""
import os
import sys

from carriers import lacking
from cuts import least_cut
from facts import closure, marks_of
from network import HOPS, Net, base_table, join
from paths import arrives, flows
from reading import Fault, read_file
from reports import as_json, lcov, report, show
from routes import chosen_at, entry_of, main_table, settle
from suites import dead, suite
from trees import fat_tree
from texts import address, bits, inside, large, lines_of, mask, number, prefix_word, words

LIMIT_FILE, LIMIT_LINES, LIMIT_ROUTERS = 4194304, 65535, 256
LIMIT_SESSION, LIMIT_LINE, LIMIT_TESTS, LIMIT_FACTS = 16777216, 4096, 4096, 1048576
MOST_ROUNDS, ROUNDS = 10000, 256


# --- the session -----------------------------------------------------------------------------
def is_quit(line):
    return len(line) <= LIMIT_LINE and b"quit" in line and words(line) == [b"quit"]


def served(session):
    """The lines that are answered, and whether the session is refused behind them."""
    lines = lines_of(session)
    last = next((k for k, line in enumerate(lines) if is_quit(line)), None)
    end = len(session) if last is None else min(len(session), sum(len(x) + 1 for x in session.split(b"\n")[: last + 1]))
    if end <= LIMIT_SESSION:
        return lines[:last], False
    return lines_of(session[: session.rfind(b"\n", 0, LIMIT_SESSION) + 1]), True


def asked_for(w):
    """(command, router's name, what, the address behind it or None) of a test, or None"""
    if w[0] == b"flow" and len(w) == 4 and None not in (address(w[2]), address(w[3])):
        return w[0], w[1], address(w[2]), address(w[3])
    if w[0] in (b"session", b"reach", b"every") and len(w) == 3 and address(w[2]) is not None:
        return w[0], w[1], address(w[2]), None
    if w[0] == b"element" and len(w) == 3 and large(w[2]) is not None:
        return w[0], w[1], large(w[2]), None
    behind = {b"rib": b"via", b"bgp": b"from"}
    if w[0] not in behind or len(w) not in (3, 5) or prefix_word(w[2]) is None:
        return None
    if len(w) == 3:
        return w[0], w[1], prefix_word(w[2]), None
    return (w[0], w[1], prefix_word(w[2]), address(w[4])) if w[3] == behind[w[0]] and address(w[4]) is not None else None


def neighbors_at(net, r, a):
    process = net.routers[r]["process"]
    return [n for n, b in enumerate(process["neighbors"] if process else []) if b["addr"] == a]


def owners_of(net, r, line):
    """The element that has a line, as a fact; none where the line is outside."""
    return [("Element", net.before[r] + place) for place, (_, lines) in enumerate(net.routers[r]["elements"]) if line in lines]


def tested_facts(net, command, r, what, a):
    if command == b"element":
        return owners_of(net, r, what)
    if command in (b"reach", b"every"):
        return [("Trace" if command == b"reach" else "All", r, what, HOPS)] if arrives(net, command == b"every", r, what, HOPS) else []
    if command == b"flow":
        return [("Flow", r, what, a, HOPS)] if flows(net, r, what, a, HOPS) else []
    if command == b"session":
        return [("Session", r, n) for n in neighbors_at(net, r, what) if (r, n) in net.sessions]
    if command == b"rib":
        return [("Main", r, k) for k, row in enumerate(main_table(net, r)) if row[0] == what and a in (None, row[2])]
    if a is not None:
        return [("Entry", r, n, what) for n in neighbors_at(net, r, a) if entry_of(net, r, n, what) is not None]
    return [("Chosen", r, what, k) for k in range(len(chosen_at(net, r, what)))]


def numbers_of(w, command, count):
    """The numbers of tests behind a command, or None where it isn't that command."""
    found = [large(x) for x in w[1:]]
    return found if w[:1] == [command] and len(found) == count and None not in found else None


def cut_of(w):
    """(test's number, names of the routers that are kept) behind `cut`, or None where it isn't that command."""
    found = numbers_of(w[:2], b"cut", 1)
    kept = w[3:] if w[2:3] == [b"keep"] else []
    return None if found is None or len(w) != 2 and not kept else (found[0], kept)


def place_of(net, e):
    """The router and the first line of an element, as they are written."""
    r = net.router_of(e)
    return net.routers[r]["name"] + b":%d" % min(net.routers[r]["elements"][e - net.before[r]][1])


class Conversation:
    def __init__(self, net, files, texts, listed):
        self.net, self.files, self.texts, self.listed = net, files, texts, listed
        self.tests, self.live, self.asked = [], [], set()
        self.names, self.sheets = [c["name"] for c in net.routers], marks_of(net, [])

    def tested(self):
        return [f for facts, live in zip(self.tests, self.live) if live for f in facts]

    def reported(self):
        return report(self.names if self.listed else [], self.sheets)

    def accept(self, facts):
        more = self.asked | closure(self.net, facts)
        if len(more) > LIMIT_FACTS:
            return b"refused limit facts\n"
        known = set(facts) <= set(self.tested())
        self.tests, self.live, self.asked = self.tests + [facts], self.live + [True], more
        if not known:
            self.sheets = marks_of(self.net, self.tested())
        return b"test %d facts %d\n" % (len(self.tests), len(self.asked)) + self.reported()

    def is_live(self, n):
        return 1 <= n <= len(self.tests) and self.live[n - 1]

    def forget(self, n):
        if not self.is_live(n):
            return b"refused test %d\n" % n
        self.live[n - 1] = False
        self.sheets = marks_of(self.net, self.tested())
        return b"forgot %d\n" % n + self.reported()

    def implies(self, m, n):
        for test in (m, n):
            if not self.is_live(test):
                return b"refused test %d\n" % test
        missing = lacking(self.net, self.tests[m - 1], self.tests[n - 1])
        head = b"implies %d %d " % (m, n)
        return head + (b"yes\n" if missing is None else b" ".join([b"no without"] + [place_of(self.net, e) for e in missing]) + b"\n")

    def cut(self, n, kept):
        for name in kept:
            if name not in self.names:
                return b"refused router " + name + b"\n"
        if not self.is_live(n):
            return b"refused test %d\n" % n
        cut = least_cut(self.net, self.tests[n - 1], {self.names.index(name) for name in kept})
        told = [b"none"] if cut is None else [b"%d" % len(cut)] + [place_of(self.net, e) for e in cut]
        return b" ".join([b"cut %d" % n] + told) + b"\n"

    def suite(self):
        tests = [(n, facts) for n, facts in enumerate(self.tests, 1) if self.is_live(n)]
        return b" ".join([b"suite"] + [b"%d" % n for n in suite(self.net, tests)]) + b"\n"

    def dead(self):
        if "dead" not in self.net.kept:
            self.net.kept["dead"] = dead(self.net, LIMIT_FACTS)
        elements = self.net.kept["dead"]
        if elements is None:
            return b"refused limit facts\n"
        return b" ".join([b"dead %d" % len(elements)] + [place_of(self.net, e) for e in elements]) + b"\n"

    def asked_of_tests(self, w):
        """The reply to a line about tests that were accepted or about what no test could mark, or None where it isn't one."""
        forgotten, pair, cut = numbers_of(w, b"forget", 1), numbers_of(w, b"implies", 2), cut_of(w)
        if w in ([b"suite"], [b"dead"]):
            return self.suite() if w == [b"suite"] else self.dead()
        if forgotten is not None:
            return self.forget(*forgotten)
        if cut is not None:
            return self.cut(*cut)
        return None if pair is None else self.implies(*pair)

    def told(self, w):
        """A report that a line asks for, or None where it asks for none."""
        if w == [b"lcov"]:
            return lcov(self.sheets, self.files)
        if w == [b"json"]:
            return as_json(self.names, self.sheets)
        if w[0] != b"show" or len(w) != 2:
            return None
        named = [r for r, name in enumerate(self.names) if name == w[1]]
        return show(self.sheets[named[0]], self.texts[named[0]]) if named else b"refused router " + w[1] + b"\n"

    def answer(self, line):
        if len(line) > LIMIT_LINE:
            return b"refused long\n"
        w = words(line)
        if not w or w[0][:1] == b"#":
            return b""
        told = self.told(w)
        if told is None:
            told = self.asked_of_tests(w)
        test = asked_for(w)
        if told is not None:
            return told
        if test is None:
            return b"refused syntax\n"
        named = [r for r, c in enumerate(self.net.routers) if c["name"] == test[1]]
        if not named:
            return b"refused router " + test[1] + b"\n"
        facts = tested_facts(self.net, test[0], named[0], test[2], test[3])
        if not facts and test[0] == b"element":
            return b"refused line\n"
        if not facts:
            return b"refused absent " + b" ".join(w) + b"\n"
        return b"refused limit tests\n" if len(self.tests) == LIMIT_TESTS else self.accept(facts)


def converse(net, session, files, texts, listed=True):
    lines, limited = served(session)
    conversation = Conversation(net, files, texts, listed)
    out = b"".join(conversation.answer(line) for line in lines if line)
    return (8, out + b"refused limit session\n") if limited else (0, out)


# --- the words, and the whole run -------------------------------------------------------------
def values_of(given, setting):
    """The words as they say one after another: (setting or None, value); None where one isn't allowed."""
    said, k = [], 0
    while k < len(given):
        w, head = given[k], given[k].split(b"=")[0]
        k += 1
        if w == b"--":
            return said + [(None, name) for name in given[k:]]
        if head in setting:
            if w == head and k == len(given):
                return None
            said.append((head, given[k] if w == head else w[len(head) + 1:]))
            k += w == head
        elif len(w) > 1 and w[:1] == b"-":
            return None
        else:
            said.append((None, w))
    return said


def read_words(given):
    """(files, rounds, pods or None), or None where they are refused"""
    said = values_of(given, (b"--rounds", b"--fat-tree"))
    if said is None:
        return None
    files = [value for setting, value in said if setting is None]
    rounds, pods = ([value for setting, value in said if setting == wanted] for wanted in (b"--rounds", b"--fat-tree"))
    if len(rounds) > 1 or len(pods) > 1 or bool(files) == bool(pods):
        return None
    found = [number(value, 1, MOST_ROUNDS) for value in rounds], [number(value, 2, 8) for value in pods]
    if None in found[0] or any(k not in (2, 4, 6, 8) for k in found[1]):
        return None
    return files, (found[0] or [ROUNDS])[0], (found[1] or [None])[0]


def read_one(name):
    """The configuration of a file and its lines; or a status and the bytes of a refusal."""
    try:
        with open(name, "rb") as file:
            data = file.read()
    except OSError:
        return 6, b""
    if len(data) > LIMIT_FILE:
        return 8, b"refused limit bytes\n"
    lines = lines_of(data)
    if len(lines) > LIMIT_LINES:
        return 8, b"refused limit lines\n"
    try:
        return [read_file(lines), lines]
    except Fault as fault:
        return refused(name, *fault.args)


def refused(name, line, cause):
    return 1, b"refused config " + name + b" %d " % line + cause + b"\n"


def network_of(files, read, rounds):
    """The network of files with their lines, as (routers' network, lines); or a status and the bytes of a refusal."""
    if len(files) > LIMIT_ROUTERS:
        return 8, b"refused limit routers\n"
    routers, texts = [], []
    for name in files:
        config = read(name)
        if isinstance(config, tuple):
            return config
        routers.append(config[0])
        texts.append(config[1])
    fault = join(routers)
    if fault and fault[0] == "limit":
        return 8, b"refused limit " + fault[1] + b"\n"
    if fault:
        return refused(files[fault[0]], fault[1], fault[2])
    net = Net(routers)
    if not settle(net, rounds):
        return 3, b"refused unstable %d\n" % rounds
    return [net, texts]


def run_tree(pods, rounds):
    files, session = fat_tree(pods)
    lines = {name: lines_of(data) for name, data in files}
    found = network_of(list(lines), lambda name: [read_file(lines[name]), lines[name]], rounds)
    if isinstance(found, tuple):
        return found
    net, texts = found
    status, out = converse(net, session, list(lines), texts, listed=False)
    heading = b"fat-tree %d routers %d lines %d\n" % (pods, len(lines), sum(map(len, texts)))
    return status, (heading if status == 0 else b"") + out


def run(given, session):
    for w in given:
        try:
            w.decode("utf-8")
        except UnicodeDecodeError:
            return 9, b""
    meant = read_words(given)
    if meant is None:
        return 2, b"refused usage\n"
    files, rounds, pods = meant
    if pods is not None:
        return run_tree(pods, rounds)
    found = network_of(files, read_one, rounds)
    if isinstance(found, tuple):
        return found
    net, texts = found
    return converse(net, session, files, texts)


if __name__ == "__main__":
    status, out = run([os.fsencode(w) for w in sys.argv[1:]], sys.stdin.buffer.read())
    sys.stdout.buffer.write(out)
    sys.stdout.buffer.flush()
    sys.exit(status)
