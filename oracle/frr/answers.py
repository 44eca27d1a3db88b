"""NetCov's answers to the questions of a lab: those of the oracle, or of a program that reads the files and a session."""
import shlex
import subprocess

from network import Net
from oracle import ROUNDS, asked_for, tested_facts
from routes import settle
from texts import words

# So many lines go into one session, which takes 4,096 tests at most.
LINES = 3000


class Refused(Exception):
    """That a network is refused whole, in the words of the refusal."""


def of_oracle(lab, lines):
    """Whether each line's test holds, as the oracle judges it; no report is made."""
    net = Net(lab.routers)
    if not settle(net, ROUNDS):
        raise Refused(f"refused unstable {ROUNDS}")
    places = {config["name"]: r for r, config in enumerate(lab.routers)}
    held = []
    for line in lines:
        command, name, what, behind = asked_for(words(line.encode()))
        held.append(bool(tested_facts(net, command, places[name], what, behind)))
    return held


def read_replies(replies, lines, routers):
    """Whether each line was accepted, by the replies to all of them; Refused where one is anything else than accepted or absent."""
    held, at = [], 0
    for line in lines:
        reply = replies[at] if at < len(replies) else "no reply"
        accepted = reply.startswith("test ")
        if not accepted and reply != "refused absent " + line:
            raise Refused(f"{reply} (to {line})")
        held.append(accepted)
        at += 2 + routers if accepted else 1
    return held


def of_program(command, lab, lines):
    """The same by sessions of a program."""
    held = []
    for start in range(0, len(lines), LINES):
        part = lines[start:start + LINES]
        done = subprocess.run(shlex.split(command) + lab.files, input="".join(line + "\n" for line in part), stdout=subprocess.PIPE,
                              text=True, check=False)
        replies = done.stdout.splitlines()
        if done.returncode == 3 and len(replies) == 1:
            raise Refused(replies[0])
        if done.returncode:
            raise Refused(f"status {done.returncode} of {command}")
        held += read_replies(replies, part, len(lab.files))
    return held
