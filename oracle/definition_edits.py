#!/usr/bin/env python3
"""Tries wrong edits of the definitions of the routing state, and tells which worked cases refuse each of them.

An edit turns one rule of a definition into a wrong one. Each is tried on a copy of the definitions and of the worked
cases (the files Case* of nc_tables/specs, and two of other crates), in a temporary folder: nothing in the checkout changes.
It is refused where a theorem of these cases no longer holds. Where the edited text can't be read, or where it isn't found,
nothing is shown. The copies stand side by side in one small crate over those that are copied, N at a time, so that one
check tries N edits: first over the cases of the edit's subject, and what these let through over all cases.

The last line counts the edits that were refused, and the status is 1 where one wasn't. All of them take some minutes.
With --stands nothing is tried: it counts the edits whose text stands once in its file.
"""
import argparse
import os
import re
import shutil
import subprocess
import sys
import tempfile

from definition_edits_list import EDITS

TOP = os.path.abspath(os.path.join(os.path.dirname(os.path.abspath(__file__)), ".."))
# The files of crates other than nc_tables that are copied, all of which is. Types stay as they are.
COPIED = {
    "nc_types": ("Network", "Joining", "Communities", "Setting"),
    "nc_network": ("Judged", "CaseLists"),
    "nc_community": ("Words", "CaseWords"),
}
# What isn't copied of nc_tables: the pieces of a path, and what a table holds, name what only that crate can see, and no definition of
# the state names them.
LEFT_OUT = ("Lib.antt", "Pieces.antt", "SpreadView.antt")
# The crates that have to be there, each with those below it.
BELOW = ("nc_types", "nc_lines", "nc_community", "nc_network", "nc_tables")
# The cases of the subject of each file.
NEAREST = {
    "nc_types/Network": ["CaseNetworks"],
    "nc_types/Joining": ["CaseNetworks", "CaseRelations", "CaseLists"],
    "nc_types/Communities": ["CaseCommunities"],
    "nc_types/Setting": ["CaseCommunities"],
    "nc_community/Words": ["CaseWords"],
    "Order": ["CaseTables"],
    "Base": ["CaseTables"],
    "Longest": ["CaseTables"],
    "Reach": ["CaseTables"],
    "Sessions": ["CaseSessions", "CaseChain"],
    "Policy": ["CasePolicy", "CaseCommunities"],
    "Choice": ["CaseChoice"],
    "Rounds": ["CaseChoice", "CaseMessages", "CaseCommunities", "CaseRounds", "CaseRelations"],
    "Settling": ["CaseRounds"],
    "State": ["CaseRounds", "CaseRelations"],
    "Spread": ["CaseSpread"],
    "Distances": ["CaseForwarding"],
    "Main": ["CaseForwarding"],
    "Forwarding": ["CaseForwarding"],
    "Levels": ["CaseForwarding"],
    "Filters": ["CaseFilters"],
    "Flows": ["CaseFilters"],
}
CRATE = "definition_edits"
LIB = """//! Definitions with an edit each, and the cases over them.
#![tactic(auto)]

ghost use Rattle.std.specs.Prelude.{◌≡◌};

/// Nothing but a number: the crate is made for its definitions.
pub fn nothing() -> u8
    ensures { result ≡ 0 }
{
    0
}
"""
ERROR = re.compile(r"^(?:\./)?specs/(\w+)/(\w+)\.antt:\d+:\d+: error: (?:`([^`]*)`: )?(.*)")
# What antt says of a case that it can't read, where an edit has taken a name away, and of what rests on a refused declaration.
UNREAD = re.compile(r"is not in scope|has no field|is no name|operand is missing|expected the end|cannot continue")
RESTS = re.compile(r"^\d+ declarations? that depends? on")


def last_part(name):
    """A file's own name, without that of its crate."""
    return name.rpartition("/")[2]


def is_case(name):
    return last_part(name).startswith("Case")


def files_of(top):
    """The text of each definition and case by its name, those of other crates than nc_tables with that of their crate in front."""
    names = [f"{crate}/{name}" for crate, copied in COPIED.items() for name in copied]
    names += [name[:-5] for name in sorted(os.listdir(f"{top}/crates/nc_tables/specs")) if name.endswith(".antt") and name not in LEFT_OUT]
    texts = {}
    for name in names:
        crate = name.partition("/")[0] if "/" in name else "nc_tables"
        with open(f"{top}/crates/{crate}/specs/{last_part(name)}.antt", encoding="utf-8") as it:
            texts[name] = it.read()
    return texts


def renamed(text, tag):
    """A text that names the copies of this tag, in place of the definitions."""
    text = re.sub(r"Rattle\.nc_tables\.specs\.(?!declared\b)", f"Rattle.{CRATE}.specs.{tag}.", text)
    for crate, copied in COPIED.items():
        text = re.sub(rf"Rattle\.{crate}\.specs\.({'|'.join(copied)})\b", rf"Rattle.{CRATE}.specs.{tag}.\1", text)
    return text


def write(path, text):
    os.makedirs(os.path.dirname(path), exist_ok=True)
    with open(path, "w", encoding="utf-8") as it:
        it.write(text)


def make_room(room):
    """The crates below, and the crate for the copies."""
    for name in BELOW:
        shutil.copytree(f"{TOP}/crates/{name}", f"{room}/crates/{name}", ignore=shutil.ignore_patterns("out"))
    with open(f"{TOP}/crates.txt", encoding="utf-8") as it:
        lines = [line for line in it if line.partition(":")[0] in BELOW]
    write(f"{room}/crates.txt", "".join(lines) + f"{CRATE}: {' '.join(BELOW)}\n")
    if os.path.isfile(f"{TOP}/HANDLES"):
        shutil.copy(f"{TOP}/HANDLES", f"{room}/HANDLES")
    write(f"{room}/crates/{CRATE}/src/lib.rt", LIB)


def edited(texts, edit):
    """The texts with the edit, or None where one of its texts doesn't stand once in its file."""
    text = texts.get(edit.file, "")
    for old, new in zip(edit.old, edit.new):
        if text.count(old) != 1:
            return None
        text = text.replace(old, new)
    return {**texts, edit.file: text}


def write_copies(room, copies):
    specs = f"{room}/crates/{CRATE}/specs"
    shutil.rmtree(specs, ignore_errors=True)
    for tag, texts in copies.items():
        for name, text in texts.items():
            write(f"{specs}/{tag}/{last_part(name)}.antt", renamed(text, tag))
        names = sorted(last_part(name) for name in texts)
        write(f"{specs}/{tag}.antt", "".join(f"pub mod {name}\n" for name in names))
    write(f"{specs}/Lib.antt", "".join(f"pub mod {tag}\n" for tag in copies))


def check(room):
    ran = subprocess.run(["rt", "check", "--jobs", "1"], cwd=f"{room}/crates/{CRATE}", stdin=subprocess.DEVNULL,
                         stdout=subprocess.PIPE, stderr=subprocess.STDOUT, text=True, errors="replace")
    return ran.stdout


def judged(said, tags):
    """By tag the theorems that no longer hold, and what couldn't be read."""
    broken, unread = {tag: [] for tag in tags}, {tag: [] for tag in tags}
    for line in said.splitlines():
        at = ERROR.match(line)
        if not at or at[1] not in broken or RESTS.match(at[4]):
            continue
        is_theorem = at[2].startswith("Case") and at[3] and not UNREAD.search(re.sub(r"`[^`]*`", "", at[4]))
        (broken if is_theorem else unread)[at[1]].append(f"{at[2]}.{at[3]}" if is_theorem else line.strip()[:200])
    return broken, unread


def with_cases(texts, cases):
    """The definitions with these cases alone, and those that they name."""
    wanted = {"Cases", *cases}
    for name, text in texts.items():
        if last_part(name) in cases:
            wanted |= set(re.findall(r"nc_tables\.specs\.(Case\w+)\b", text))
    return {name: text for name, text in texts.items() if not is_case(name) or last_part(name) in wanted}


def try_batch(room, texts, batch, nearest=False):
    """Yields each edit of a batch with the theorems that refuse it, and what is wrong with the edit itself."""
    copies = {f"E{number}": edited(with_cases(texts, NEAREST[edit.file]) if nearest else texts, edit) for number, edit in batch}
    write_copies(room, {tag: copy for tag, copy in copies.items() if copy})
    said = check(room)
    if not re.search(r"^logic=", said, re.M):
        sys.exit(f"the check gave no verdict:\n{said[-2000:]}")
    broken, unread = judged(said, copies)
    for number, edit in batch:
        tag = f"E{number}"
        why = unread[tag] if copies[tag] else ["its text doesn't stand once in its file"]
        yield edit, broken[tag], why


def told(edit, broken, why):
    if why:
        return f"NOT TRIED   {edit.definition}: {edit.meaning}: {why[0]}"
    if not broken:
        return f"NOT REFUSED {edit.definition}: {edit.meaning}"
    more = f" and {len(broken) - 3} more" if len(broken) > 3 else ""
    return f"refused     {edit.definition}: {edit.meaning}: by {', '.join(broken[:3])}{more}"


def table_of(results):
    """A table by definition: the cases that refuse an edit, the fewest first, and what each edit means."""
    lines = ["| definition | wrong edits that are refused | theorems that refuse them |", "|---|---|---|"]
    by_definition = {}
    for edit, broken, why in results:
        if broken and not why:
            by_definition.setdefault(edit.definition, []).append((edit, broken))
    for definition, tried in by_definition.items():
        names = []
        for edit, broken in tried:
            names += [name for name in broken[:2] if name not in names]
        meanings = "; ".join(edit.meaning for edit, broken in tried)
        lines.append(f"| `{definition}` | {meanings} | {', '.join(f'`{name}`' for name in names)} |")
    return "\n".join(lines) + "\n"


def stand(texts, picked):
    """Prints each edit that no longer fits the definitions; returns how many do."""
    lacking = [(number, edit) for number, edit in picked if edited(texts, edit) is None]
    for number, edit in lacking:
        print(f"failed {number} {edit.definition} ({edit.file}): its text doesn't stand once in its file")
    return len(picked) - len(lacking)


def try_all(texts, picked, size):
    """Tries the edits, so many at a time, and tells of each; returns each with the theorems that refuse it and what is wrong with it."""
    results = []
    with tempfile.TemporaryDirectory(prefix="definition-edits-") as room:
        make_room(room)
        write_copies(room, {"E0": texts})
        said = check(room)
        if not re.search(r"^logic=proved", said, re.M):
            sys.exit(f"without an edit the cases don't hold:\n{said[-3000:]}")
        for at in range(0, len(picked), size):
            batch = picked[at:at + size]
            tried = list(try_batch(room, texts, batch, nearest=True))
            rest = [numbered for numbered, (edit, broken, why) in zip(batch, tried) if not broken and not why]
            again = {edit: (edit, broken, why) for edit, broken, why in try_batch(room, texts, rest)} if rest else {}
            for result in tried:
                results.append(again.get(result[0], result))
                print(told(*results[-1]), flush=True)
    return results


def words_given():
    """The words of the command line."""
    words = argparse.ArgumentParser(description=__doc__, formatter_class=argparse.RawDescriptionHelpFormatter)
    words.add_argument("--only", default="", help="the edits whose definition or file has this word")
    words.add_argument("--first", type=int, default=1, help="the number of the first edit, from 1")
    words.add_argument("--last", type=int, default=len(EDITS), help="the number of the last edit")
    words.add_argument("--list", action="store_true", help="list the edits and try none")
    words.add_argument("--stands", action="store_true", help="look whether the edits fit the definitions, and try none")
    words.add_argument("--table", metavar="FILE", help="write a table of the definitions, their cases and what these refuse to this file")
    words.add_argument("--batch", type=int, default=12, help="how many edits one check tries")
    return words.parse_args()


def main():
    given = words_given()
    picked = [(n, edit) for n, edit in enumerate(EDITS, 1) if given.first <= n <= given.last and (given.only in edit.definition or given.only in edit.file)]
    if given.list:
        print("\n".join(f"{n} {edit.definition} ({edit.file}): {edit.meaning}" for n, edit in picked))
        return 0
    texts = files_of(TOP)
    if given.stands:
        fitting = stand(texts, picked)
        print(f"{fitting} passed, {len(picked) - fitting} failed")
        return 0 if fitting == len(picked) else 1
    results = try_all(texts, picked, given.batch)
    if given.table:
        write(os.path.abspath(given.table), table_of(results))
    bad = sum(1 for edit, broken, why in results if why or not broken)
    print(f"{len(results)} edits of {len({edit.definition for edit, b, w in results})} definitions: {len(results) - bad} refused, {bad} not")
    print(f"{len(results) - bad} passed, {bad} failed")
    return 1 if bad else 0


if __name__ == "__main__":
    sys.exit(main())
