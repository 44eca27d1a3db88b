"""The differences between FRRouting and NetCov that are told, each with the rule that makes it.

They stand in the file `differences` of a lab. A line that isn't indented has the definition of docs/DEFINITIONS.md, a colon, and
the departure in the words of docs/AGREEMENT.md. Below it stands, indented, a line for each question:

    session_at: both sides need multihop
        session r1 192.0.2.2: FRR present, NetCov absent

A network that is refused whole has one line, `every question`, with the refusal:

    IsUnstable: a network that settles only in some order is refused
        every question: refused unstable 256
"""
import os
import re
from collections import namedtuple

Entry = namedtuple("Entry", "frr netcov rule departure")

HEADING = re.compile(r"(\w+): (\S.*)")
LINE = re.compile(r"\s+([^:]+): FRR (present|absent), NetCov (present|absent)")
WHOLE = re.compile(r"\s+every question: (refused .+)")
EVERY = "every question"


class EntryFault(Exception):
    """A line of a file of differences that can't be read, in words."""


def state(present):
    return "present" if present else "absent"


def told(question, frr, netcov):
    """A difference as its line says it."""
    return f"{question}: FRR {state(frr)}, NetCov {state(netcov)}"


def read_line(line, heading, where):
    """(question, entry) of an indented line."""
    whole, found = WHOLE.fullmatch(line), LINE.fullmatch(line)
    if heading is None or not (whole or found):
        raise EntryFault(f"{where}: neither a rule nor a question with two answers: {line.strip()}")
    if whole:
        return EVERY, Entry(None, whole[1], *heading)
    if found[2] == found[3]:
        raise EntryFault(f"{where}: both answers are the same: {line.strip()}")
    return found[1], Entry(found[2] == "present", found[3] == "present", *heading)


def read_entries(path):
    """{question: entry} of a file of differences; none where there is no file."""
    entries, heading = {}, None
    if not os.path.exists(path):
        return entries
    with open(path, encoding="utf-8") as file:
        lines = file.read().splitlines()
    for number, line in enumerate(lines, 1):
        where = f"{path}:{number}"
        if not line[:1].isspace() and line:
            found = HEADING.fullmatch(line)
            if not found:
                raise EntryFault(f"{where}: no rule, colon and departure: {line}")
            heading = found[1], found[2]
        elif line.strip():
            question, entry = read_line(line, heading, where)
            if question in entries:
                raise EntryFault(f"{where}: told before: {question}")
            entries[question] = entry
    return entries
