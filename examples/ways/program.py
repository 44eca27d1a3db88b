"""Runs NetCov for the scripts of this folder, and cuts what it writes into the replies of the single lines.

The variable NETCOV has the command that runs it. Without it that is what the repository builds, or the program at the top
of an unpacked archive, or `netcov` on the path.
"""
import itertools
import os
import shlex
import shutil
import subprocess
import sys

from configurations import Router

TOP = os.path.dirname(os.path.dirname(os.path.dirname(os.path.abspath(__file__))))
MOST_TESTS, LONGEST, MOST_SHOWN = 4096, 4096, 200


class CouldNotRun(Exception):
    """NetCov ended with another status than 0; has the status and what it wrote."""

    def __init__(self, status, said):
        super().__init__(f"NetCov could not run: status {status}")
        self.status, self.said = status, said


def command():
    """The words of the command that runs NetCov."""
    if os.environ.get("NETCOV"):
        return shlex.split(os.environ["NETCOV"])
    for place in (os.path.join(TOP, "crates", "netcov", "out", "netcov"), os.path.join(TOP, "netcov")):
        if os.access(place, os.X_OK) and os.path.isfile(place):
            return [place]
    return [shutil.which("netcov") or "netcov"]


def run(files, lines):
    """The status and the lines that NetCov writes for the lines of a session."""
    session = "".join(line + "\n" for line in lines)
    try:
        data = session.encode(errors="surrogateescape")
        ran = subprocess.run([*command(), "--", *files], input=data, stdout=subprocess.PIPE, check=False)
    except OSError as error:
        sys.exit(f"NetCov is not there: {error}. The variable NETCOV names the command that runs it.")
    return ran.returncode, ran.stdout.decode(errors="surrogateescape").split("\n")[:-1]


def numbered(lines):
    """The lines of a session that have a reply, with their numbers: up to `quit`, without blank lines and notes, but for
    those that are too long."""
    for number, line in enumerate(lines, 1):
        words = line.split()
        long = len(line.encode(errors="surrogateescape")) > LONGEST
        if words == ["quit"] and not long:
            return
        if long or words and not words[0].startswith("#"):
            yield number, line


def answered(lines):
    """The lines of a session that have a reply."""
    return (line for _, line in numbered(lines))


def shown(number, line):
    """A line of a session with its number, as it is told: without bytes that are no text, and cut where it is long."""
    text = " ".join(line.split()).encode(errors="surrogateescape").decode(errors="backslashreplace")
    return f"line {number}: {text[:MOST_SHOWN]}" + (" .." if len(text) > MOST_SHOWN else "")


def refusals(lines, replies):
    """What is told of the refused ones among numbered lines: the reply, and the line where the reply names nothing of it."""
    refused = ((line, reply.said[0]) for line, reply in zip(lines, replies) if reply.refused)
    return [said if len(said.split()) > 2 else f"{said}: {shown(*line)}" for line, said in refused]


def count_of_lines(file):
    """How many lines NetCov counts in a file: a rest behind the last line feed is one."""
    text = open(file, "rb").read()
    return text.count(b"\n") + (text != b"" and not text.endswith(b"\n"))


class Reply:
    """What was written for one line of a session."""

    def __init__(self, line, said):
        self.line, self.said = line, said

    @property
    def refused(self):
        """Whether the line was refused."""
        return self.said[0].startswith("refused ")

    @property
    def absent(self):
        """Whether it is a test that doesn't hold."""
        return self.said[0].startswith("refused absent ")

    @property
    def number(self):
        """The number of the accepted test, or None."""
        words = self.said[0].split()
        return int(words[1]) if words[0] == "test" else None

    def marks(self):
        """The marks of each router, for a reply with a report."""
        return dict(line.rsplit(" ", 1) for line in self.said[2:])


def length_of(said, place, line, files):
    """How many lines the reply has that begins at a place."""
    word, asked = said[place].split(" ", 1)[0], line.split()
    if word in ("test", "forgot"):
        return 2 + len(files)
    if word == "refused":
        return 1
    if asked[0] == "lcov":
        ends = (k for k in range(place, len(said)) if said[k] == "end_of_record")
        return list(itertools.islice(ends, len(files)))[-1] + 1 - place
    return next(count_of_lines(file) for file in files if Router(file).name == asked[1]) if asked[0] == "show" else 1


def ask(files, lines):
    """The reply of each line that has one."""
    lines = list(lines)
    status, said = run(files, lines)
    if status != 0:
        raise CouldNotRun(status, said)
    replies, place = [], 0
    for line in answered(lines):
        length = length_of(said, place, line, files)
        replies.append(Reply(" ".join(line.split()), said[place : place + length]))
        place += length
    return replies


def could_not_run(error):
    """Says what NetCov wrote where it could not run, and ends with its status."""
    print(error, file=sys.stderr)
    print("\n".join(error.said), file=sys.stderr)
    sys.exit(error.status)
