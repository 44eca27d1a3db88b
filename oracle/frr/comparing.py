"""Holds NetCov's answers against FRRouting's, lab by lab."""
from collections import Counter, namedtuple

from answers import Refused, of_oracle, of_program
from entries import EVERY, read_entries, told
from labs import Lab
from questions import KINDS, questions
from translation import digest

# counts: how many questions of each (kind, outcome); failures: lines that say what isn't as it is told
Result = namedtuple("Result", "name about routers counts departures failures")

OUTCOMES = ("present", "absent", "differ", "refused")


def outcome(frr, netcov):
    return "differ" if frr != netcov else "present" if frr else "absent"


def judged(asked, held, entries):
    """What is wrong with the answers to questions: differences that aren't told or are told otherwise, and what is told and isn't so."""
    failures, open_entries = [], dict(entries)
    for question, netcov in zip(asked, held):
        entry = open_entries.pop(question.line, None)
        said = None if entry is None else (entry.frr, entry.netcov)
        if question.present != netcov and said != (question.present, netcov):
            failures.append(f"{told(question.line, question.present, netcov)}: {'told otherwise' if entry else 'no entry'}")
        elif question.present == netcov and entry:
            failures.append(f"{question.line}: an entry, and no difference")
    return failures + [f"{question}: an entry, and no such question" for question in open_entries]


def judged_whole(refusal, entries):
    """The same where the network is refused."""
    if set(entries) == {EVERY} and entries[EVERY].netcov == refusal:
        return []
    return [f"{EVERY}: {refusal}: no entry"]


def compare(folder, command=None):
    """The comparison of a lab: over the program of a command, or else over the oracle."""
    lab = Lab(folder)
    tables, entries = lab.tables(), read_entries(lab.beside("differences"))
    asked = questions(lab, tables)
    lines = [question.line for question in asked]
    try:
        held = of_program(command, lab, lines) if command else of_oracle(lab, lines)
    except Refused as refusal:
        counts = Counter((question.kind, "refused") for question in asked)
        failures = judged_whole(str(refusal), entries)
    else:
        counts = Counter((question.kind, outcome(question.present, netcov)) for question, netcov in zip(asked, held))
        failures = judged(asked, held, entries)
    departures = Counter((entry.rule, entry.departure) for entry in entries.values())
    failures += [] if tables["translation"] == digest(lab) else ["the tables were taken of other files than these"]
    failures += [] if tables["stable"] else ["FRRouting hadn't come to rest when its tables were taken"]
    return Result(lab.name, lab.about, len(lab.files), counts, departures, failures)


def row(*cells):
    return "| " + " | ".join(f"{cell:,}" if isinstance(cell, int) else cell for cell in cells) + " |"


def headline(results):
    """All results in a sentence, as the document has it."""
    total = Counter()
    for result in results:
        for (_, one), count in result.counts.items():
            total[one] += count
    alike = total["present"] + total["absent"]
    return (f"{len(results)} labs, {sum(total.values()):,} questions: {alike:,} are answered alike, {total['differ']:,} otherwise, and "
            f"{total['refused']:,} are about a network that NetCov refuses.")


def kind_table(results):
    """The table of questions by kind, in Markdown."""
    total = sum((result.counts for result in results), Counter())
    lines = [row("question", "asked", "both present", "both absent", "differ", "refused"), "|---|--:|--:|--:|--:|--:|"]
    for kind in KINDS:
        parts = [total[kind, one] for one in OUTCOMES]
        lines.append(row(f"`{kind}`", sum(parts), *parts))
    sums = [sum(total[kind, one] for kind in KINDS) for one in OUTCOMES]
    return lines + [row("all", sum(sums), *sums)]


def lab_table(results):
    """The table of labs, in Markdown."""
    lines = [row("lab", "what it singles out", "routers", "asked", "differ", "refused"), "|---|---|--:|--:|--:|--:|"]
    for result in results:
        by_outcome = Counter()
        for (_, one), count in result.counts.items():
            by_outcome[one] += count
        lines.append(row(f"`{result.name}`", result.about, result.routers, sum(by_outcome.values()), by_outcome["differ"], by_outcome["refused"]))
    return lines
