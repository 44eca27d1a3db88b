"""The page is what its parts make, and what the checks take for replies is what sessions write."""
import os
import subprocess
import sys

from page import PAGE, is_harmless
from replies import TOP, Session, json_of, lcov_of, report_of, shown

FOLDER = os.path.join(TOP, "examples", "first-run")


def check_joined():
    run = subprocess.run([sys.executable, "-B", os.path.join(TOP, "viewer", "join"), "--check"], capture_output=True, text=True, check=False)
    assert run.returncode == 0, run.stderr


def check_oracle():
    """Reports, `show`, `json` and `lcov` as the checks build them, and as the oracle writes them."""
    session = Session([os.path.join(FOLDER, "r1.cfg")])
    tests = open(os.path.join(FOLDER, "session"), encoding="utf-8").read()
    assert session.write(tests) == open(os.path.join(FOLDER, "replies"), "rb").read(), "the oracle's answer isn't the example's"
    routers = session.routers()
    lines = session.write("rib r1 10.20.0.0/24").split(b"\n", 1)
    assert lines[0].startswith(b"test ") and lines[1] == report_of(session.routers()), lines
    assert session.write("show r1") == shown(session.lines[0], session.routers()[0][1])
    assert session.write("json") == json_of(session.routers()) and len(routers) == 1
    assert session.write("lcov") == lcov_of([os.fsencode(file) for file in session.files], session.routers())


def check_quiet():
    """What a browser logs as information is no fault; what it warns of, an error, and what is asked for beside the page are."""
    for level, harmless in (("verbose", True), ("info", True), ("warning", False), ("error", False)):
        assert is_harmless({"entry": {"level": level}}) == harmless, level
    assert is_harmless({"request": {"url": PAGE}}) and not is_harmless({"request": {"url": "http://netcov.invalid/"}})
    assert not is_harmless({"exceptionDetails": {"text": "Uncaught"}})


CHECKS = (check_joined, check_oracle, check_quiet)
