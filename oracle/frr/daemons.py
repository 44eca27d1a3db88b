"""The daemons of FRRouting, those of each router in its namespace and in a folder of their own."""
import os
import shutil
import subprocess
import tempfile
import time

from translation import texts_of

PROGRAMS = os.environ.get("FRR_SBIN", "/usr/lib/frr")
PATIENCE = 20


class Daemons:
    """zebra, staticd and, where there is a process, bgpd of each router."""

    def __init__(self, lab, spaces):
        self.lab, self.spaces, self.running = lab, spaces, []
        self.folder = tempfile.mkdtemp(prefix="frr-lab-")
        os.chmod(self.folder, 0o755)

    def place(self, r, *name):
        return os.path.join(self.folder, str(r), *name)

    def start(self):
        for r, text in enumerate(texts_of(self.lab)):
            os.mkdir(self.place(r))
            with open(self.place(r, "frr.conf"), "w", encoding="latin-1") as file:
                file.write(f"log file {self.place(r, 'log')}\n{text}")
            shutil.chown(self.place(r), "frr", "frr")
        for daemon in ("zebra", "staticd", "bgpd"):
            started = [r for r, config in enumerate(self.lab.routers) if daemon != "bgpd" or config["process"]]
            for r in started:
                self.launch(daemon, r)
            self.await_all(daemon, started)

    def launch(self, daemon, r):
        words = ["ip", "netns", "exec", self.spaces.of(r), os.path.join(PROGRAMS, daemon), "-f", self.place(r, "frr.conf"), "-P", "0",
                 "-i", self.place(r, daemon + ".pid"), "-z", self.place(r, "zserv.api"), "--vty_socket", self.place(r)]
        words += ["-p", "179"] if daemon == "bgpd" else []
        with open(self.place(r, daemon + ".out"), "w", encoding="utf-8") as out:
            self.running.append(subprocess.Popen(words, stdout=out, stderr=out, stdin=subprocess.DEVNULL, cwd=self.place(r)))

    def await_all(self, daemon, routers):
        until = time.time() + PATIENCE
        for r in routers:
            while not os.path.exists(self.place(r, daemon + ".vty")):
                if time.time() > until:
                    with open(self.place(r, daemon + ".out"), encoding="utf-8", errors="replace") as out:
                        raise RuntimeError(f"{daemon} of {self.lab.names[r]} didn't start: {out.read().strip()}")
                time.sleep(0.05)

    def ask(self, r, commands):
        """What a router's daemons answer to commands, one behind the other."""
        words = ["vtysh", "--vty_socket", self.place(r), "--config_dir", self.place(r)]
        for command in commands:
            words += ["-c", command]
        return subprocess.run(words, stdout=subprocess.PIPE, stderr=subprocess.DEVNULL, text=True, check=False).stdout

    def stop(self):
        """Ends the daemons that were started here, and removes their folders."""
        for process in self.running:
            if process.poll() is None:
                process.terminate()
        for process in self.running:
            try:
                process.wait(5)
            except subprocess.TimeoutExpired:
                process.kill()
                process.wait()
        shutil.rmtree(self.folder, ignore_errors=True)


def version():
    done = subprocess.run([os.path.join(PROGRAMS, "bgpd"), "--version"], stdout=subprocess.PIPE, text=True, check=True)
    return done.stdout.splitlines()[0]
