"""What sessions write: of the examples by the oracle, and of networks made up here, as large as they may be."""
import functools
import json
import os
import random
import shlex
import subprocess
import sys

HERE = os.path.dirname(os.path.abspath(__file__))
TOP = os.path.dirname(os.path.dirname(HERE))
ORACLE = os.path.join(TOP, "oracle", "oracle.py")
LETTERS = b"SWU."


PROGRAM = shlex.split(os.environ.get("NETCOV", "")) or [sys.executable, "-B", ORACLE]


@functools.lru_cache(maxsize=None)
def answered(files, session):
    """What NetCov writes: the oracle, or the program that NETCOV names. It is run as anybody runs it; nothing here leans on its inside."""
    run = subprocess.run([*PROGRAM, "--", *files], input=session, capture_output=True, check=False)
    assert run.returncode == 0, f"{PROGRAM[-1]} ended with status {run.returncode}: {(run.stdout + run.stderr).decode()[-2000:]}"
    return run.stdout


def shown(lines, marks):
    """The text of `show`."""
    return b"".join(b"%c %d " % (mark, k + 1) + line + b"\n" for k, (mark, line) in enumerate(zip(marks, lines)))


def counted(routers):
    """How many lines of all routers are strong, weak, uncovered, outside."""
    return [sum(marks.count(letter) for _, marks in routers) for letter in LETTERS]


def report_of(routers):
    """A report on routers, each a name and marks."""
    return b"strong %d weak %d uncovered %d outside %d\n" % tuple(counted(routers)) + b"".join(name + b" " + marks + b"\n" for name, marks in routers)


def json_of(routers):
    """The text of `json`."""
    counts = dict(zip(("strong", "weak", "uncovered", "outside"), counted(routers)))
    listed = [{"marks": marks.decode(), "name": name.decode("latin-1")} for name, marks in routers]
    return json.dumps({**counts, "routers": listed}, separators=(",", ":"), sort_keys=True).encode() + b"\n"


def lcov_of(files, routers):
    """The text of `lcov`."""
    out = b""
    for file, (_, marks) in zip(files, routers):
        lines = [b"DA:%d,%d\n" % (k + 1, mark in b"SW") for k, mark in enumerate(marks) if mark not in b"."]
        covered = sum(mark in b"SW" for mark in marks)
        out += b"TN:\nSF:%s\n" % file + b"".join(lines) + b"LF:%d\nLH:%d\nend_of_record\n" % (len(lines), covered)
    return out


class Session:
    """A session over files."""

    def __init__(self, files):
        self.files, self.text = tuple(files), b""
        self.lines = [open(file, "rb").read().decode("latin-1").splitlines() for file in files]
        self.lines = [[line.encode("latin-1") for line in lines] for lines in self.lines]

    def write(self, text):
        """What this session writes for these further lines."""
        before = len(answered(self.files, self.text))
        self.text += text.encode() + b"\n"
        return answered(self.files, self.text)[before:]

    def routers(self):
        """Each router's name and marks."""
        told = json.loads(answered(self.files, self.text + b"json\n").splitlines()[-1])
        return [(router["name"].encode("latin-1"), router["marks"].encode()) for router in told["routers"]]


def made_up(count, length, seed):
    """Routers without a network behind them: each a name, marks and lines."""
    chance = random.Random(seed)
    routers = []
    for n in range(count):
        name = b"edge%d" % n
        marks, lines = bytearray(b"."), [b"hostname " + name]
        while len(lines) < length:
            size = min(chance.randint(2, 6), length - len(lines))
            mark = chance.choice(b"SSSSWWU")
            lines += [b"!"] + [b"interface Ethernet%d" % len(lines)] + [b" ip address 10.0.%d.%d 255.255.255.252" % (k, n % 256) for k in range(size - 2)]
            marks += bytes([46] + [mark] * (size - 1))
        routers.append((name, bytes(marks[:length]), lines[:length]))
    return routers


def replies_of(routers):
    """A test's reply on made-up routers, and `show` of each."""
    told = report_of([(name, marks) for name, marks, _ in routers])
    return b"test 1 facts 4\n" + told + b"".join(shown(lines, marks) for _, marks, lines in routers)
