"""A machine of its own for tests: a folder with Debian in it, whose systemd is booted by systemd-nspawn. It has a network of its
own with a loopback alone."""
import os
import signal
import subprocess
import sys
import time

ENVIRONMENT = {"PATH": "/usr/sbin:/usr/bin:/sbin:/bin", "LANG": "C.UTF-8", "DEBIAN_FRONTEND": "noninteractive", "MANWIDTH": "80"}


def child_of(parent):
    """The one child of this process, or None while it has none."""
    for name in os.listdir("/proc"):
        if name.isdigit():
            try:
                with open(f"/proc/{name}/stat", encoding="utf-8") as file:
                    fields = file.read().rpartition(")")[2].split()
            except OSError:
                continue
            if int(fields[1]) == parent:
                return int(name)
    return None


class Machine:
    """Booted when it is made; `stop` ends it."""

    def __init__(self, root, log):
        self.root = root
        words = ["systemd-nspawn", "--quiet", "--register=no", "--private-network", "--boot", f"--directory={root}"]
        if not os.path.isdir("/run/systemd/system"):
            # Nobody could be asked for a scope.
            words.append("--keep-unit")
        with open(log, "wb") as said:
            self.process = subprocess.Popen(words, stdin=subprocess.DEVNULL, stdout=said, stderr=said, start_new_session=True)
        self.leader = None
        self.wait_until_up(90)

    def wait_until_up(self, limit):
        end = time.monotonic() + limit
        while time.monotonic() < end and self.process.poll() is None:
            self.leader = child_of(self.process.pid)
            if self.leader and self.run("systemctl", "is-system-running").stdout.strip() in ("running", "degraded"):
                return
            time.sleep(0.5)
        self.stop()
        sys.exit("the machine didn't boot")

    def words(self, *words, network_alone=False):
        """The words that run these in the machine, or only in its network."""
        inside = ["-n"] if network_alone else ["-m", "-u", "-i", "-n", "-p"]
        return ["nsenter", "-t", str(self.leader), *inside, "--", *words]

    def run(self, *words, stdin=None):
        """Runs a program of the machine to its end."""
        return subprocess.run(
            self.words(*words), input=stdin or "", stdout=subprocess.PIPE, stderr=subprocess.STDOUT, text=True,
            env=ENVIRONMENT, check=False,
        )  # fmt: skip

    def start(self, *words, stdin=None, network_alone=False):
        """Starts a program, and leaves it running."""
        with open(stdin or "/dev/null", "rb") as source:
            return subprocess.Popen(
                self.words(*words, network_alone=network_alone), stdin=source, stdout=subprocess.PIPE, stderr=subprocess.STDOUT,
                text=True, env=ENVIRONMENT,
            )  # fmt: skip

    def stop(self):
        """Ends it as a machine is turned off."""
        if self.process.poll() is None:
            self.process.send_signal(signal.SIGTERM)
            try:
                self.process.wait(60)
            except subprocess.TimeoutExpired:
                self.process.kill()
                self.process.wait()
