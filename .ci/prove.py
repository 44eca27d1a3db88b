#!/usr/bin/env python3
"""Proves crates each by a call of its own, those first behind which most waits, and keeps what passes for rt ci.

    .ci/prove.py [--until NAME] [NAME ..]     (all crates, or these and those below them)

The toolchain's gate takes crates in such an order too, by their lines, and each with one processor while another could be
proved. Here they come in the order of what their proofs took (.ci/seconds, in processor seconds), by a call of rt ci each,
over a copy of the crate and those below it. A crate gets two processors where all else would wait for it, and gives way to
those with longer chains. What a call reads and compares takes up to half a minute, so that of the crate that comes next
begins before the one below it is proved, and waits for that.

It prints a line for each crate that is proved, and all that is said of one that isn't. It ends with 1 where a crate isn't
proved, and with 3 where this toolchain keeps nothing that passed, so that a crate below is proved again: then rt ci has
all to do. With --until it ends when that crate is proved, and leaves what is being proved then to run on, with what can
be begun behind it: rt ci waits for that. Where the first crate of the longest chain is kept it ends at once, for then
most mostly is, and one rt ci over all takes that sooner. With two processors or one it begins nothing: nearly always as
many crates can be proved then, in whatever order, and each call reads those below once more.
"""
import argparse
import contextlib
import os
import re
import shutil
import signal
import subprocess
import sys
import tempfile
import time

ROOT = os.path.dirname(os.path.dirname(os.path.realpath(__file__)))
PROVED, REFUSED, UNKEPT, KEPT = 0, 1, 3, -1
# About what the proof of a crate that .ci/seconds doesn't name takes, in minutes of one processor: of itself, for each line
# of code, for each line and crate below, and for a program, which is compiled with all below it.
EACH, A_LINE, A_LINE_OVER_A_CRATE, A_PROGRAM = 0.5, 0.0018, 0.0001, 3
GIGABYTES_A_PROOF = 4
# With fewer processors one rt ci over all takes it sooner.
LEAST_PROCESSORS = 3
# How many minutes such a call takes at most until its proof begins.
A_CALL = 0.6
# Which part of the time of one processor a proof by two may take: 0.58 to 0.86 were measured.
BY_TWO = 0.8
# A chain this near to the longest is taken for as long: what proofs take isn't known better.
AS_LONG = 0.97
# What a call without a chain would give way by, to the one of the longest: from 0 to 19.
GIVES_WAY = 15
# How many calls more than processors run at most, where those with shorter chains give way to one with a longer.
MORE = 2
# With less memory free, in gigabytes, none is begun so; and with less a call may take one processor alone, for what it finds
# free is what it goes by.
MEMORY_OF_MORE, MEMORY_OF_A_CALL = 10, 16
# Proves all crates of a folder, and removes it.
CALL = 'rt ci; status=$?; cd /; rm -rf "$1"; exit $status'


def named_in(text):
    """Returns the crates that a crates.txt names, each with those of them that it stands on.

    >>> named_in("# low\\nb: a serde\\na: thiserror\\n")
    {'b': ['a'], 'a': []}
    """
    rows = [line.split("#")[0].partition(":") for line in text.splitlines()]
    named = {name.split()[0]: words.split() for name, colon, words in rows if colon}
    return {name: [it for it in words if it in named] for name, words in named.items()}


def all_below(name, named):
    """Returns all crates below one.

    >>> sorted(all_below("c", {"a": [], "b": ["a"], "c": ["b"]}))
    ['a', 'b']
    """
    return set(named[name]).union(*(all_below(it, named) for it in named[name]))


def chains_of(minutes, named):
    """Returns how long the longest chain takes that begins with each crate and leads over those that stand on it.

    >>> chains_of({"a": 1, "b": 2, "c": 4}, {"a": [], "b": ["a"], "c": ["a"]})
    {'a': 5, 'b': 2, 'c': 4}
    """
    chains = {}

    def chain(name):
        if name not in chains:
            above = [chain(it) for it in named if name in named[it]]
            chains[name] = minutes[name] + max(above, default=0)
        return chains[name]

    return {name: chain(name) for name in named}


def shares(ready, running, lanes, chains, rest, more=0):
    """Returns which crates are begun, and by how many processors, of those that can be, beside those that run by so many.

    Those with the longest chains come first. One begins where those that run and have a longer chain leave a processor; for
    those with a shorter one give way, it may be one of `more` than there are. It gets one processor, and two where fewer
    crates wait than there are idle ones, or where its chain is the longest and so long that all the rest, which takes so
    many minutes by all processors, would wait for it even by two: these take somewhat more together than one does.

    >>> shares(["a", "b", "c"], {}, 4, {"a": 9, "b": 8, "c": 4}, 9)
    {'a': 2, 'b': 1, 'c': 1}
    >>> shares(["a", "b", "c"], {}, 3, {"a": 9, "b": 8, "c": 4}, 9)
    {'a': 1, 'b': 1, 'c': 1}
    >>> shares(["a", "b", "c"], {}, 3, {"a": 9, "b": 8, "c": 4}, 5)
    {'a': 2, 'b': 1}
    >>> shares(["b", "c"], {"a": 2, "d": 1}, 3, {"a": 9, "b": 8, "c": 4, "d": 5}, 9, 1)
    {'b': 1}
    >>> shares(["a"], {}, 1, {"a": 9}, 5)
    {'a': 2}
    """
    begun = {}
    longest = max((chains[it] for it in [*ready, *running]), default=0)
    for name in sorted(ready, key=lambda it: -chains[it]):
        by = {**running, **begun}
        ahead = sum(jobs for it, jobs in by.items() if chains[it] >= chains[name])
        idle = lanes - sum(by.values())
        if ahead >= lanes or idle + more < 1:
            break
        waiting = len(ready) - len(begun)
        is_longest = chains[name] >= AS_LONG * longest
        begun[name] = 2 if idle > waiting or (is_longest and BY_TWO * chains[name] > rest) else 1
    return begun


def behind(named, chains, left, done, running):
    """Returns which crates of those that are left may be begun early: they wait for one alone, which runs.

    That is the one with the longest chain of all, or each of them where no other is left.

    >>> named = {"a": [], "b": [], "c": ["a"], "d": ["a", "b"], "e": ["c"]}
    >>> behind(named, {"c": 7, "d": 8, "e": 3}, ["c", "d", "e"], {"b"}, ["a"])
    ['d']
    >>> behind(named, {"c": 7, "d": 8, "e": 3}, ["c", "d", "e"], set(), ["a", "b"])
    []
    >>> behind(named, {"c": 7, "d": 8}, ["c", "d"], {"b"}, ["a"])
    ['c', 'd']
    """
    waits = {it: set(named[it]) - done for it in left}
    near = [it for it in left if len(waits[it]) == 1 and waits[it] <= set(running)]
    first = max(left, key=chains.get, default=None)
    return near if len(near) == len(left) else [it for it in near if it == first]


def processors():
    """Returns how many crates are proved side by side: as many as there are processors and memory."""
    memory = os.sysconf("SC_PAGE_SIZE") * os.sysconf("SC_PHYS_PAGES") / 2**30
    return max(1, min(len(os.sched_getaffinity(0)), round(memory / GIGABYTES_A_PROOF)))


def gigabytes_free():
    """Returns how much memory is free, or 0 where the system doesn't tell."""
    try:
        with open("/proc/meminfo", encoding="ascii") as file:
            found = re.search(r"MemAvailable:\s+(\d+) kB", file.read())
    except OSError:
        found = None
    return int(found[1]) / 10**6 if found else 0


def lines_of(name):
    """Returns how many lines of code a crate has."""
    count = 0
    for folder, _, files in os.walk(f"{ROOT}/crates/{name}/src"):
        for file in files:
            with open(f"{folder}/{file}", "rb") as code:
                count += code.read().count(b"\n")
    return count


def noted_seconds():
    """Returns how many processor seconds the proof of each crate took that .ci/seconds names; all of these are there.

    >>> with open(f"{ROOT}/crates.txt", encoding="utf-8") as file:
    ...     sorted(set(noted_seconds()) - set(named_in(file.read())))
    []
    """
    with open(f"{ROOT}/.ci/seconds", encoding="utf-8") as file:
        return {name: int(seconds) for name, seconds in (line.split() for line in file)}


def minutes_of(name, below, noted):
    """Returns about how many minutes of one processor a crate takes, over so many crates."""
    if name in noted:
        return noted[name] / 60
    program = A_PROGRAM if os.path.exists(f"{ROOT}/crates/{name}/src/main.rt") else 0
    return EACH + (A_LINE + A_LINE_OVER_A_CRATE * below) * lines_of(name) + program


def copied(names):
    """Returns a new folder with a copy of these crates, as a repository of their own."""
    room = tempfile.mkdtemp(prefix="prove-")
    for name in names:
        shutil.copytree(f"{ROOT}/crates/{name}", f"{room}/crates/{name}", ignore=shutil.ignore_patterns("out"))
    shutil.copyfile(f"{ROOT}/HANDLES", f"{room}/HANDLES")
    with open(f"{ROOT}/crates.txt", encoding="utf-8") as lines, open(f"{room}/crates.txt", "w", encoding="utf-8") as kept:
        kept.writelines(line for line in lines if line.partition(":")[0].strip() in names)
    return room


class Call:
    """A proof that runs: that of a crate over those below it, which are done, but for one where it is early."""

    def __init__(self, name, below, done, jobs, way):
        self.name, self.jobs, self.begun, self.seconds = name, jobs, time.monotonic(), 0
        self.kept, self.is_early = below & done, not below <= done
        self.room = copied({name, *below})
        self.said = tempfile.TemporaryFile("w+", encoding="utf-8", errors="replace")
        environment = dict(os.environ) if jobs > 1 else {**os.environ, "RT_JOBS": "1"}
        how = {"cwd": self.room, "env": environment, "stdin": subprocess.DEVNULL, "stdout": self.said, "stderr": self.said}
        self.run = subprocess.Popen(["sh", "-c", CALL, "sh", self.room], start_new_session=True, **how)
        if way:
            with contextlib.suppress(OSError), open(f"/proc/{self.run.pid}/autogroup", "w", encoding="ascii") as file:
                file.write(str(way))

    def minutes(self):
        """Returns for how many minutes it runs."""
        return (time.monotonic() - self.begun) / 60

    def has_ended(self):
        """Says whether it has ended, and notes with what status and after how many processor seconds."""
        if self.run.returncode is None:
            number, status, used = os.wait4(self.run.pid, os.WNOHANG)
            if number:
                self.run.returncode = os.waitstatus_to_exitcode(status)
                self.seconds = used.ru_utime + used.ru_stime
        return self.run.returncode is not None

    def stop(self):
        """Ends it."""
        os.killpg(self.run.pid, signal.SIGTERM)
        self.run.wait()
        shutil.rmtree(self.room, ignore_errors=True)

    def status(self):
        """Tells how it ended, and returns that."""
        self.said.seek(0)
        text = self.said.read()
        proved = re.findall(r"^rt: (\w+) proved$", text, re.M)
        if self.run.returncode:
            print(f"{text}== {self.name} isn't proved", flush=True)
            return REFUSED
        if not self.kept.isdisjoint(proved):
            print(f"== {self.name} is proved, but nothing is kept", flush=True)
            return UNKEPT
        by = "two processors" if self.jobs > 1 else "one processor"
        if self.name not in proved:
            print(f"== {self.name} is kept", flush=True)
            return KEPT
        print(f"== {self.name} proved, after {60 * self.minutes():.0f} s by {by}: {self.seconds:.0f} processor seconds", flush=True)
        return PROVED


class Proofs:
    """The crates that are proved, and those that run."""

    def __init__(self, named, until):
        noted = noted_seconds()
        minutes = {it: minutes_of(it, len(all_below(it, named)), noted) for it in named}
        self.named, self.until, self.minutes, self.chains = named, until, minutes, chains_of(minutes, named)
        self.left, self.running, self.ended, self.done = set(named), {}, set(), set()
        self.lanes, self.status = processors(), PROVED

    def rest(self):
        """Returns about how many minutes all takes that is left, by all processors."""
        runs = sum(max(0, self.minutes[it] - ran.minutes()) for it, ran in self.running.items())
        return (sum(self.minutes[it] for it in self.left) + runs) / self.lanes

    def begin(self, lanes):
        """Begins what can be: crates that stand on what is done; by so many processors, or somewhat more."""
        running = {it: ran.jobs for it, ran in self.running.items() if not ran.is_early}
        ready = [it for it in self.left if self.done.issuperset(self.named[it])]
        more = MORE if gigabytes_free() > MEMORY_OF_MORE else 0
        for name, jobs in shares(ready, running, lanes, self.chains, self.rest(), more).items():
            self.call(name, jobs)
        if not any(it.is_early for it in self.running.values()) and gigabytes_free() > MEMORY_OF_A_CALL:
            self.begin_early()

    def begin_early(self):
        """Begins the call that comes next on the longest chain, where the one that it waits for has begun its proof, or all
        that are left."""
        proofs = [it for it, ran in self.running.items() if ran.minutes() > A_CALL and not ran.is_early]
        names = behind(self.named, self.chains, self.left, self.done, proofs)
        idle = self.lanes if len(names) == len(self.left) else 1
        for name, jobs in shares(names, {}, idle, self.chains, self.rest()).items():
            self.call(name, jobs)

    def call(self, name, jobs):
        """Begins the call of a crate."""
        self.left.remove(name)
        below = all_below(name, self.named)
        longest = max((self.chains[it] for it in {name, *self.left, *self.running} - below))
        way = round(GIVES_WAY * (1 - self.chains[name] / longest))
        self.running[name] = Call(name, below, self.done, jobs, way)

    def end(self):
        """Takes what has ended."""
        for name in [it for it, ran in self.running.items() if ran.has_ended()]:
            status = self.running.pop(name).status()
            self.ended.add(name)
            self.status = max(self.status, status)
            if status in (PROVED, KEPT):
                self.done.add(name)
            if status == KEPT and self.chains[name] == max(self.chains.values()):
                self.left.clear()
            for it, ran in self.running.items():
                if ran.is_early and self.done.issuperset(self.named[it]):
                    ran.is_early, ran.begun = False, time.monotonic()
        if self.status == UNKEPT:
            self.left.clear()
            self.stop()

    def goes_on(self):
        """Says whether there is something to wait for."""
        return bool(self.running) and self.until not in self.ended

    def whole(self):
        """Proves all, and returns the status."""
        self.begin(self.lanes)
        while self.goes_on():
            time.sleep(0.2)
            self.end()
            self.begin(self.lanes)
        if self.until in self.done:
            # (rt ci would begin it later)
            self.begin(self.lanes + 2 * len(self.left))
        return self.status

    def stop(self):
        """Ends what runs."""
        for ran in self.running.values():
            ran.stop()
        self.running.clear()


def main():
    words = argparse.ArgumentParser(description=__doc__, formatter_class=argparse.RawDescriptionHelpFormatter)
    words.add_argument("--until", metavar="NAME", help="end when this crate is proved")
    words.add_argument("names", nargs="*", metavar="NAME", help="a crate that is proved, with those below it (all)")
    given = words.parse_args()
    with open(f"{ROOT}/crates.txt", encoding="utf-8") as file:
        named = named_in(file.read())
    absent = [it for it in [*given.names, *([given.until] if given.until else [])] if it not in named]
    if absent:
        words.error(f"there is no crate {absent[0]}")
    if processors() < LEAST_PROCESSORS:
        return PROVED
    wanted = set(given.names).union(*(all_below(it, named) for it in given.names)) if given.names else set(named)
    proofs = Proofs({it: named[it] for it in named if it in wanted}, given.until)
    try:
        return proofs.whole()
    except KeyboardInterrupt:
        proofs.stop()
        return REFUSED


if __name__ == "__main__":
    sys.exit(main())
