#!/usr/bin/env python3
"""Tells which modules of a crate's proof took longest: .ci/slow.py crates/NAME [COUNT]

It reads what a check of the crate kept, which was made from nothing (crates/NAME/out removed before) by one job:
`rt check --jobs 1` in the crate's folder. There is a file for each module, written when it was done; so the time from
one file to the next is what a module took, by the clock. CONTRIBUTING.md says what the modules are, and what helps.
"""
import collections
import os
import re
import sys


def module_of(path):
    """Returns the module of a file that a check kept, whose records stand apart.

    >>> module_of("records/Rattle-nc_cut-proofs.sizes.look.Proof.decls.oantt")
    'nc_cut-proofs.sizes.look.Proof'
    >>> module_of("Rattle-nc_cut-proofs.sizes.look.Lts.oantt")
    'nc_cut-proofs.sizes.look.Lts'
    """
    return re.sub(r"\.(decls\.)?oantt$", "", os.path.basename(path)).removeprefix("Rattle-")


def seconds_of(files):
    """Returns the seconds of each module, most first, of pairs of a time in seconds and a path.

    >>> seconds_of([(10, "a.oantt"), (17, "c.oantt"), (12, "records/b.decls.oantt"), (13, "b.oantt")])
    [('c', 4), ('b', 3)]
    """
    taken, before = collections.Counter(), None
    for time, path in sorted(files):
        if before is not None:
            taken[module_of(path)] += time - before
        before = time
    return taken.most_common()


def kept_by(crate):
    """Yields the time and the path of each file that a check of a crate kept."""
    for folder, _, names in os.walk(f"{crate}/out/incremental"):
        for name in names:
            path = f"{folder}/{name}"
            yield os.stat(path).st_mtime_ns / 1e9, path


def main():
    if len(sys.argv) not in (2, 3) or not os.path.isdir(f"{sys.argv[1]}/out/incremental"):
        sys.exit(__doc__)
    for module, seconds in seconds_of(kept_by(sys.argv[1]))[:int((*sys.argv, "30")[2])]:
        print(f"{seconds:7.1f} s  {module}")


if __name__ == "__main__":
    main()
