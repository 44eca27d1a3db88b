#!/usr/bin/env python3
"""Tests of the release: what ./dist refuses, what its archive has, and that it can be installed and used.

    python3 release/release_test.py

A program that answers by the oracle stands for the built one. It prints a line for each test, `held` or `failed`, and its
status is 1 where one failed.
"""
import argparse
import glob
import os
import shutil
import subprocess
import sys
import tempfile

ROOT = os.path.dirname(os.path.dirname(os.path.abspath(__file__)))
FIRST = os.path.join(ROOT, "examples", "first-run")
SCRATCH, ARCHIVES = tempfile.mkdtemp(), []


def ran(*command, **how):
    """(status, what a command printed on both outputs)"""
    done = subprocess.run(command, stdout=subprocess.PIPE, stderr=subprocess.STDOUT, text=True, check=False, **how)
    return done.returncode, done.stdout


def program(folder, body):
    """A program of a shell's commands."""
    path = os.path.join(folder, "program")
    with open(path, "w", encoding="utf-8") as file:
        file.write(f"#!/bin/sh\n{body}\n")
    os.chmod(path, 0o755)
    return path


def released(folder, program_in=None):
    """The archive that ./dist makes of the oracle."""
    made = program(program_in or folder, f'exec python3 "{ROOT}/oracle/oracle.py" "$@"')
    status, said = ran(f"{ROOT}/dist", "--program", made, "--to", folder)
    assert status == 0, said
    return said.split()[0]


def refuses_what_is_not_built(folder):
    status, said = ran(f"{ROOT}/dist", "--program", os.path.join(folder, "none"), "--to", folder)
    assert status == 1 and "the program isn't built" in said, said


def refuses_a_program_older_than_its_code(folder):
    """In a clone in which a file of the program is newer than the program."""
    clone = os.path.join(folder, "clone")
    status, said = ran("git", "-c", f"safe.directory={ROOT}/.git", "clone", "-q", "--depth", "1", f"file://{ROOT}", clone)
    assert status == 0, said
    shutil.copy(f"{ROOT}/dist", clone)
    built = os.path.join(clone, "crates", "netcov", "out", "netcov")
    os.makedirs(os.path.dirname(built))
    shutil.copy(program(folder, "exit 0"), built)
    os.utime(built, (0, 0))
    status, said = ran(f"{clone}/dist", "--to", folder)
    assert status == 1 and "has changed since the program was built" in said, said


def refuses_a_program_of_another_text(folder):
    status, said = ran(f"{ROOT}/dist", "--program", program(folder, "echo test 1 facts 5"), "--to", folder)
    assert status == 1 and "built from another text" in said and not glob.glob(f"{folder}/*.gz"), said


def makes_the_folder_it_writes_to(folder):
    archive = released(os.path.join(folder, "new"), program_in=folder)
    assert os.path.dirname(archive) == os.path.join(folder, "new"), archive
    status, said = ran(f"{ROOT}/dist", "--program", os.path.join(folder, "program"), "--to", os.path.join(folder, "program", "new"))
    assert status == 1 and "can't be written to" in said and "Traceback" not in said, said


def same_text_same_bytes(folder):
    first = open(released(folder), "rb").read()
    assert open(released(folder), "rb").read() == first
    status, said = ran("sha256sum", "-c", *(os.path.basename(path) for path in glob.glob(f"{folder}/*.sha256")), cwd=folder)
    assert status == 0, said


def unpacked(folder):
    """The folder of an unpacked archive, which is made once for all tests."""
    archive = ARCHIVES[0] if ARCHIVES else released(tempfile.mkdtemp(dir=SCRATCH))
    ARCHIVES[:] = [archive]
    status, said = ran("tar", "xzf", archive, cwd=folder)
    assert status == 0, said
    return os.path.join(folder, os.path.basename(archive).removesuffix(".tar.gz"))


def says_what_is_proved(folder):
    top = unpacked(folder)
    text = open(os.path.join(top, "PROOF"), encoding="utf-8").read()
    for part in (open(os.path.join(top, "VERSION"), encoding="utf-8").read().strip(), "rattle-kit", "For every list of configurations"):
        assert part in text, text


def is_installed_and_answers(folder):
    top, prefix = unpacked(folder), os.path.join(folder, "prefix")
    status, said = ran("sh", os.path.join(top, "install.sh"), "prefix", cwd=folder)
    assert status == 0, said
    for path in ("share/man/man1/netcov.1", "share/netcov/viewer/netcov.html", "share/netcov/docs/USING.md", "share/netcov/PROOF",
                 "share/bash-completion/completions/netcov"):
        assert os.path.isfile(os.path.join(prefix, path)), path
    answered = subprocess.run([os.path.join(prefix, "bin", "netcov"), "r1.cfg"], cwd=os.path.join(prefix, "share/netcov/examples/first-run"),
                              stdin=open(os.path.join(FIRST, "session"), "rb"), stdout=subprocess.PIPE, check=True).stdout
    assert answered == open(os.path.join(FIRST, "replies"), "rb").read()


def installs_into_one_folder(folder):
    top = unpacked(folder)
    assert ran("sh", os.path.join(top, "install.sh"), "--help")[0] == 2
    assert ran("sh", os.path.join(top, "install.sh"), "a", "b")[0] == 2


def tests_its_own_program(folder):
    """The tests of an archive ask the program at its top, which here answers nothing."""
    top = unpacked(folder)
    os.replace(program(folder, 'echo asked >> "$0.asked"; exit 1'), os.path.join(top, "netcov"))
    without = {name: value for name, value in os.environ.items() if name != "NETCOV"}
    status, said = ran(os.path.join(top, "examples", "ways", "test"), env=without)
    assert status == 1 and os.path.exists(os.path.join(top, "netcov.asked")), said
    assert said.startswith(f"the program is {os.path.realpath(top)}/netcov\n"), said


def completes(folder):
    """What bash offers for words of a command line, the last one being completed."""
    with open(os.path.join(folder, "r1.cfg"), "w", encoding="utf-8"):
        pass
    for words, offered in ((["--r"], "--rounds"), (["--fat-tree", ""], "2 4 6 8"), (["--fat-tree", "=", "4"], "4"), (["r"], "r1.cfg"),
                           (["--", "r"], "r1.cfg"), (["--", "-"], ""), (["--rounds", ""], "")):
        line = " ".join(f"'{word}'" for word in words)
        script = f"source '{ROOT}/release/netcov.bash'; COMP_WORDS=(netcov {line}); COMP_CWORD={len(words)}; _netcov; echo ${{COMPREPLY[*]}}"
        status, said = ran("bash", "-c", script, cwd=folder)
        assert (status, said.strip()) == (0, offered), f"{words}: {said}"


def manual_page_is_clean(_):
    if shutil.which("mandoc"):
        status, said = ran("mandoc", "-Tlint", os.path.join(ROOT, "docs", "netcov.1"))
        assert (status, said) == (0, ""), said


TESTS = (refuses_what_is_not_built, refuses_a_program_older_than_its_code, refuses_a_program_of_another_text,
         makes_the_folder_it_writes_to, same_text_same_bytes, says_what_is_proved, is_installed_and_answers,
         installs_into_one_folder, tests_its_own_program, completes, manual_page_is_clean)


def main():
    argparse.ArgumentParser(description=__doc__, formatter_class=argparse.RawDescriptionHelpFormatter).parse_args()
    failed = 0
    for test in TESTS:
        folder, name = tempfile.mkdtemp(), "release: " + test.__name__.replace("_", " ")
        try:
            test(folder)
            print(f"held   {name}")
        except (AssertionError, OSError, subprocess.CalledProcessError) as error:
            failed += 1
            print(f"failed {name}: {error}")
        finally:
            shutil.rmtree(folder)
    shutil.rmtree(SCRATCH)
    return 1 if failed else 0


if __name__ == "__main__":
    sys.exit(main())
