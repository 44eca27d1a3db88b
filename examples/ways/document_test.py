#!/usr/bin/env python3
"""Runs the commands of the documents for users as they stand there, over a copy, and compares what they print.

    python3 examples/ways/document_test.py NETCOV

NETCOV is the command that runs the program; it stands at the top of the copy, as in an unpacked archive. A block of commands
begins with ```sh; a block without a word that follows it at once is what these commands print, and their errors. All blocks
of one document are run by one shell from the top, so what one sets the next one has. A block that calls the toolchain or
the gate is passed over. What the commands write must lie outside the copy.
"""
import argparse
import difflib
import os
import re
import shutil
import subprocess
import sys
import tempfile

TOP = os.path.dirname(os.path.dirname(os.path.dirname(os.path.abspath(__file__))))
DOCUMENTS = ("README.md", "docs/USING.md", "examples/campus/README.md")
COPIED = ("README.md", "docs", "examples", "oracle", "viewer")
BLOCKS = re.compile(r"^```sh\n(.*?)^```\n(?:\n?```\n(.*?)^```\n)?", re.S | re.M)
NEEDS_A_PROOF = re.compile(r"^(?:.*[;&(|] *)?(rt |\.ci/|cd crates|git )", re.M)


def copy(folder, netcov):
    """The documents and the examples, and the program at the top."""
    for name in COPIED:
        if os.path.isdir(os.path.join(TOP, name)):
            shutil.copytree(os.path.join(TOP, name), os.path.join(folder, name), ignore=shutil.ignore_patterns("__pycache__"))
        elif os.path.exists(os.path.join(TOP, name)):
            shutil.copy(os.path.join(TOP, name), folder)
    program = os.path.join(folder, "netcov")
    with open(program, "w", encoding="utf-8") as file:
        file.write(f'#!/bin/sh\nexec {netcov} "$@"\n')
    os.chmod(program, 0o755)


def files_of(folder):
    """All files of the copy with their times, but for what Python keeps of modules."""
    found = (os.path.join(path, name) for path, _, names in os.walk(folder) if "__pycache__" not in path for name in names)
    return {path: os.stat(path).st_mtime_ns for path in found}


def differences(folder, document):
    """What the blocks of a document print otherwise than told, and what they write into the copy."""
    text = open(os.path.join(TOP, document), encoding="utf-8").read()
    blocks = [block for block in BLOCKS.findall(text) if not NEEDS_A_PROOF.search(block[0])]
    script = "".join(f"{commands}\necho end-of-block-{k}\n" for k, (commands, _) in enumerate(blocks))
    scratch = tempfile.mkdtemp()
    env = {name: value for name, value in os.environ.items() if name != "NETCOV"} | {"TMPDIR": scratch}
    before = files_of(folder)
    ran = subprocess.run(["sh"], input=script, stdout=subprocess.PIPE, stderr=subprocess.STDOUT, cwd=folder, env=env, text=True, check=False)
    shutil.rmtree(scratch)
    rest, found = ran.stdout, []
    for k, (commands, told) in enumerate(blocks):
        printed, _, rest = rest.partition(f"end-of-block-{k}\n")
        if printed != told:
            found += [f"failed {document}: {commands.strip()}"]
            found += difflib.unified_diff(told.splitlines(), printed.splitlines(), "told", "printed", lineterm="")
    written = sorted(path for path, time in files_of(folder).items() if before.get(path) != time)
    found += [f"failed {document} writes {os.path.relpath(path, folder)}" for path in written]
    return found or [f"held   the {len(blocks)} blocks of commands of {document}"]


def main():
    parser = argparse.ArgumentParser(description=__doc__, formatter_class=argparse.RawDescriptionHelpFormatter)
    parser.add_argument("netcov", metavar="NETCOV", help="the command that runs the program")
    words = parser.parse_args()
    netcov = " ".join(os.path.abspath(word) if os.path.exists(word) else word for word in words.netcov.split())
    found = []
    for document in (name for name in DOCUMENTS if os.path.exists(os.path.join(TOP, name))):
        folder = tempfile.mkdtemp()
        try:
            copy(folder, netcov)
            found += differences(folder, document)
        finally:
            shutil.rmtree(folder)
    print("\n".join(found))
    return 1 if any(line.startswith("failed ") for line in found) else 0


if __name__ == "__main__":
    sys.exit(main())
