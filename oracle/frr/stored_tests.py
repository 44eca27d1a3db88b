"""Tests of what is stored: the labs' answers, whose networks they are, and what docs/AGREEMENT.md says of them."""
import os

from comparing import headline, kind_table, lab_table
from labs import STORED, files_of, folder_of, stored
from trees import fat_tree

ROOT = os.path.dirname(os.path.dirname(os.path.dirname(STORED)))


def text_of(*path):
    with open(os.path.join(*path), encoding="utf-8") as file:
        return file.read()


def comparisons(results):
    for result in results:
        yield f"{result.name}: {sum(result.counts.values())} questions", result.failures
    yield "each lab says what it singles out", [result.name for result in results if not result.about]


def told_departures(agreement):
    """The (definition, departure, lab) that the document's table of departures has."""
    rows = [line.strip("| ").split(" | ") for line in agreement.splitlines() if line.startswith("| ")]
    tables = [row for row in rows if len(row) == 4 and row[1].startswith("`") and row[2].startswith("`")]
    return {(row[1].strip("`"), row[0], lab.strip("`")) for row in tables for lab in row[2].split(", ")}


def documents(results):
    agreement, definitions = text_of(ROOT, "docs", "AGREEMENT.md"), text_of(ROOT, "docs", "DEFINITIONS.md")
    lines = agreement.splitlines()
    yield "the numbers of the document", [line for line in [headline(results)] + kind_table(results) + lab_table(results) if line not in lines]
    seen = {(rule, words, result.name) for result in results for rule, words in result.departures}
    told = told_departures(agreement)
    yield "departures that labs show stand in the document", sorted(map(str, seen - told))
    yield "departures in the document are shown by labs", sorted(map(str, told - seen))
    yield "their rules are defined", sorted({rule for rule, _, _ in seen if f"`{rule}`" not in definitions})


def networks():
    for pods in (2, 4):
        made = {name.decode(): data.decode() for name, data in fat_tree(pods)[0]}
        kept = {os.path.basename(path): text_of(path) for path in files_of(folder_of(f"fattree{pods}"))}
        yield f"fattree{pods} is the generated network", [name for name in set(made) | set(kept) if made.get(name) != kept.get(name)]
    examples = os.path.join(ROOT, "examples")
    # A network without a session is one whose files are refused as they stand, which no router need agree with.
    have = {name for name in os.listdir(examples) if os.path.isfile(os.path.join(examples, name, "session"))}
    named = {os.path.basename(os.path.dirname(files_of(folder)[0])) for folder in stored()}
    yield "each network of the examples has a lab", sorted(have - named)
