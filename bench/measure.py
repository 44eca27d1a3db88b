"""Measures a run of a program: instructions, processor time and peak memory."""
import os
import re
import signal
import subprocess
import typing

COLLECTED = re.compile(rb"Collected : (\d+)")
COUNTER = ["valgrind", "--tool=callgrind", "--callgrind-out-file=/dev/null"]

# Starts a program out of a process of its own that is small: what Python needs isn't counted as the program's.
STARTER = r"""
#include <stdio.h>
#include <sys/resource.h>
#include <sys/wait.h>
#include <unistd.h>

int main(int count, char **words) {
    int status = 0;
    struct rusage used;
    FILE *told;
    pid_t child = count > 2 ? vfork() : -1;
    if (child == 0) {
        execvp(words[2], words + 2);
        _exit(127);
    }
    if (child < 0 || wait4(child, &status, 0, &used) != child || !(told = fopen(words[1], "w"))) return 126;
    fprintf(told, "%ld %ld %ld", used.ru_utime.tv_sec + used.ru_stime.tv_sec,
            (long)(used.ru_utime.tv_usec + used.ru_stime.tv_usec), used.ru_maxrss);
    fclose(told);
    return WIFEXITED(status) ? WEXITSTATUS(status) : 125;
}
"""


class Used(typing.NamedTuple):
    """What a run used, and what came of it."""

    seconds: float
    megabytes: float
    status: int
    replies: bytes


class Room:
    """A folder with the files of a network, in which a program is run over it."""

    def __init__(self, folder, files):
        self.folder, self.starter = folder, f"{folder}/.starter"
        for name, lines in files.items():
            with open(f"{folder}/{name}", "w", encoding="utf-8") as file:
                file.writelines(f"{line}\n" for line in lines)

    def ask(self, lines):
        """Puts a session into place, of which the lines are these."""
        with open(f"{self.folder}/.session", "w", encoding="utf-8") as file:
            file.writelines(f"{line}\n" for line in lines)

    def ended(self, command, seconds):
        """Runs a command over the session; returns its status, its replies and its errors."""
        with open(f"{self.folder}/.session", "rb") as session:
            how = {"cwd": self.folder, "stdin": session, "stdout": subprocess.PIPE, "stderr": subprocess.PIPE}
            with subprocess.Popen(command, start_new_session=True, **how) as run:
                try:
                    replies, errors = run.communicate(timeout=seconds)
                except subprocess.TimeoutExpired:
                    os.killpg(run.pid, signal.SIGKILL)
                    run.communicate()
                    raise
        return run.returncode, replies, errors

    def run(self, command, seconds):
        """Runs a command, and returns what it used."""
        if not os.path.exists(self.starter):
            compiler = ["cc", "-O1", "-x", "c", "-", "-o", self.starter]
            subprocess.run(compiler, input=STARTER.encode(), check=True)
        status, replies, _ = self.ended([self.starter, f"{self.folder}/.used", *command], seconds)
        with open(f"{self.folder}/.used", encoding="utf-8") as told:
            whole, micro, kilobytes = (int(it) for it in told.read().split())
        return Used(whole + micro / 1e6, kilobytes / 1024, status, replies)

    def instructions(self, command, seconds):
        """Returns how many instructions a command takes, by valgrind's callgrind."""
        _, _, errors = self.ended([*COUNTER, *command], seconds)
        counted = COLLECTED.search(errors)
        if not counted:
            raise ValueError(f"callgrind told no count: {errors.decode(errors='replace').strip()[-200:]}")
        return int(counted[1])
