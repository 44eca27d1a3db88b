#!/usr/bin/env python3
"""Runs the worked cases and the examples over the second program, or over another, and compares what they write.

A worked case is a folder of cases/data: the words (args), the files that they name, the bytes of the
session (session), the status of the end (status), and either all bytes that are written (stdout) or what some of
their lines are (check). An example is a folder of examples/ with a session and its replies: its files in the order
of their names, and the status 0. The last line counts what passed, and the status is 1 where something failed.
"""
import argparse
import concurrent.futures
import os
import re
import shlex
import subprocess
import sys

ROOT = os.path.dirname(os.path.dirname(os.path.realpath(__file__)))
CASES = f"{ROOT}/cases/data"
EXAMPLES = f"{ROOT}/examples"
SECOND = f"{sys.executable} {ROOT}/oracle/oracle.py"
LINE = re.compile(rb"line (-?[1-9][0-9]*) (is|begins) (.*)", re.S)


def content(folder, name):
    """Returns the bytes of a file of a folder, or None where there is none."""
    path = f"{folder}/{name}"
    if not os.path.isfile(path):
        return None
    with open(path, "rb") as file:
        return file.read()


def is_line(statement, lines):
    """Whether a line is as `line K is TEXT` or `line K begins TEXT` has it; K counts from the end where it is negative."""
    told = LINE.fullmatch(statement)
    if not told:
        return False
    number = int(told[1])
    place = number - 1 if number > 0 else len(lines) + number
    line = lines[place] if 0 <= place < len(lines) else None
    return line is not None and (line == told[3] if told[2] == b"is" else line.startswith(told[3]))


def holds(statement, lines):
    """Whether a statement holds of the lines; one that can't be read doesn't."""
    if statement.startswith(b"contains line "):
        return statement.removeprefix(b"contains line ") in lines
    if statement.startswith(b"lines "):
        return statement == b"lines %d" % len(lines)
    return is_line(statement, lines)


def wrong_bytes(written, wanted):
    """Says from where on the bytes are others than wanted, or None."""
    if written == wanted:
        return None
    alike = len(os.path.commonprefix([written, wanted]))
    return f"other bytes from {alike} on: {written[alike:alike + 60]!r} in place of {wanted[alike:alike + 60]!r}"


def wrong_lines(written, checks):
    """Says which statement on the lines doesn't hold, or None."""
    lines = written.removesuffix(b"\n").split(b"\n")
    broken = [it for it in checks.removesuffix(b"\n").split(b"\n") if not holds(it, lines)]
    return f"{broken[0].decode(errors='replace')} doesn't hold" if broken else None


def answered(program, folder, words, session):
    """Returns the status and the bytes of a run in a folder."""
    ended = subprocess.run([*program, *words], cwd=folder, input=session, stdout=subprocess.PIPE, timeout=120, check=False)
    return ended.returncode, ended.stdout


def fault_of_case(program, name):
    """Says what is wrong with a worked case, or None."""
    folder = f"{CASES}/{name}"
    words = (content(folder, "args") or b"").split(b"\n")[:-1]
    status, written = answered(program, folder, words, content(folder, "session") or b"")
    wanted = content(folder, "status")
    if wanted is None or int(wanted) != status:
        return f"it ended with {status}"
    whole, checks = content(folder, "stdout"), content(folder, "check")
    if whole is None and checks is None:
        return "it says of no bytes what they are"
    return wrong_lines(written, checks) if whole is None else wrong_bytes(written, whole)


def fault_of_example(program, name):
    """Says what is wrong with an example, or None."""
    folder = f"{EXAMPLES}/{name}"
    words = sorted(it for it in os.listdir(folder) if it.endswith(".cfg"))
    status, written = answered(program, folder, words, content(folder, "session"))
    return f"it ended with {status}" if status else wrong_bytes(written, content(folder, "replies"))


def judged(program, name, fault_of):
    """Whether a case or an example holds; prints what is wrong with it."""
    try:
        fault = fault_of(program, name)
    except (ValueError, subprocess.TimeoutExpired) as error:
        fault = str(error)
    if fault:
        print(f"failed {name}: {fault}", flush=True)
    return not fault


def main():
    words = argparse.ArgumentParser(description=__doc__, formatter_class=argparse.RawDescriptionHelpFormatter)
    words.add_argument("--program", default=SECOND, help="the command of the program that is tried (the second program)")
    words.add_argument("--jobs", type=int, default=2, help="how many runs are made side by side (2)")
    words.add_argument("names", nargs="*", metavar="NAME", help="the cases and examples that are tried (all)")
    given = words.parse_args()
    program = [os.path.abspath(it) if os.path.exists(it) else it for it in shlex.split(given.program)]
    known = {name: fault_of_case for name in sorted(os.listdir(CASES))}
    examples = (it for it in sorted(os.listdir(EXAMPLES)) if os.path.isfile(f"{EXAMPLES}/{it}/replies"))
    known |= {name: fault_of_example for name in examples}
    lacking = [it for it in given.names if it not in known]
    if lacking:
        words.error(f"{lacking[0]} is no worked case and no example")
    with concurrent.futures.ThreadPoolExecutor(given.jobs) as pool:
        chosen = given.names or known
        held = list(pool.map(lambda name: judged(program, name, known[name]), chosen))
    print(f"{sum(held)} passed, {len(held) - sum(held)} failed")
    return 0 if all(held) else 1


if __name__ == "__main__":
    sys.exit(main())
