"""What systemd does with a unit of contrib/, for a machine where it isn't the first process: the unit's words, its standard
input, and the rules by which it is started again. Only what these units use is known here; another value is an error."""
import os
import re
import shlex
import signal
import subprocess
import threading
import time

# systemd's own values where a unit says nothing.
DEFAULTS = {"Restart": "no", "RestartSec": "100ms", "StartLimitIntervalSec": "10s", "StartLimitBurst": "5"}
SECONDS = {"": 1, "s": 1, "sec": 1, "ms": 0.001, "m": 60, "min": 60, "h": 3600}
STARTED_AGAIN = {
    "no": lambda status: False,
    "always": lambda status: True,
    "on-failure": lambda status: status != 0,
    "on-success": lambda status: status == 0,
}


def seconds(text):
    """A span of time, as `2`, `100ms` or `1min 30s`."""
    parts = re.findall(r"([0-9.]+)\s*([a-z]*)", text)
    return sum(float(number) * SECONDS[unit] for number, unit in parts)


def read_unit(path):
    """The values of each key, in their order; an empty one takes back those before it."""
    values = {}
    with open(path, encoding="utf-8") as file:
        for line in file:
            line = line.strip()
            if line and line[0] not in "#;[":
                key, _, value = line.partition("=")
                values[key] = values.get(key, []) + [value] if value else []
    return values


def read_environment(path):
    """The variables of an environment file."""
    with open(path, encoding="utf-8") as file:
        lines = [line.strip() for line in file]
    return dict(line.split("=", 1) for line in lines if line and line[0] not in "#;")


class Service:
    """One instance of a template unit. `places` names what stands in the place of which file."""

    def __init__(self, unit, instance, places, environment=None):
        self.values = read_unit(unit)
        self.instance = instance
        self.places = places
        self.restart = self.last("Restart")
        self.rest = seconds(self.last("RestartSec"))
        self.interval = seconds(self.last("StartLimitIntervalSec"))
        self.burst = int(self.last("StartLimitBurst"))
        self.prevented = {int(word) for value in self.values.get("RestartPreventExitStatus", []) for word in value.split()}
        self.environment = dict(environment or {})
        # What was seen: the moment of each start, and of each end with its status.
        self.starts, self.ends, self.gave_up = [], [], None
        self.process = None
        self.stopping = threading.Event()
        self.thread = None

    def last(self, key):
        return (self.values.get(key) or [DEFAULTS[key]])[-1]

    def place(self, path):
        path = path.replace("%i", self.instance).replace("%%", "%")
        return self.places.get(path, path)

    def words(self, variables):
        """The words of ExecStart=: `${NAME}` is one word, or none of it where the variable isn't there."""
        words = shlex.split(self.values["ExecStart"][-1])
        words = [re.sub(r"\$\{(\w+)\}", lambda found: variables.get(found[1], ""), word) for word in words]
        return [self.place(words[0]), *words[1:]]

    def start_once(self, said):
        """Starts the program, as the unit says now: systemd reads both files anew at each start."""
        variables = {}
        for path in self.values.get("EnvironmentFile", []):
            variables.update(read_environment(self.place(path)))
        kind, _, path = self.last("StandardInput").partition(":")
        if kind != "file":
            raise ValueError(f"StandardInput={kind}")
        settings = os.open(self.place(path), os.O_RDONLY)
        try:
            environment = {**self.environment, **variables}
            return subprocess.Popen(self.words(variables), stdin=settings, stdout=said, stderr=said, env=environment)
        finally:
            os.close(settings)

    def missing(self):
        """The first file that the unit asserts and that isn't there."""
        places = map(self.place, self.values.get("AssertPathExists", []))
        return next((place for place in places if not os.path.exists(place)), None)

    def why_not(self):
        """Why no other start follows now, or None."""
        if missing := self.missing():
            return f"{missing} isn't there"
        recent = [start for start in self.starts if time.monotonic() - start < self.interval]
        if len(recent) >= self.burst and self.interval > 0:
            return f"{len(recent)} starts within {self.interval:g} s"
        return None

    def keep(self, said):
        """Starts the program and starts it again, until the unit's rules or `stop` end that."""
        while not self.stopping.is_set():
            self.gave_up = self.why_not()
            if self.gave_up:
                return
            self.starts.append(time.monotonic())
            self.process = self.start_once(said)
            status = self.process.wait()
            self.ends.append((time.monotonic(), status))
            if self.stopping.is_set():
                return
            if status in self.prevented:
                self.gave_up = f"status {status} is in RestartPreventExitStatus"
                return
            if not STARTED_AGAIN[self.restart](status):
                self.gave_up = f"Restart={self.restart} with status {status}"
                return
            self.stopping.wait(self.rest)

    def start(self, said=subprocess.DEVNULL):
        self.thread = threading.Thread(target=self.keep, args=(said,), daemon=True)
        self.thread.start()
        return self

    def wait(self, limit):
        """Waits until it isn't started again, and gives whether that came in time."""
        self.thread.join(limit)
        return not self.thread.is_alive()

    def stop(self):
        self.stopping.set()
        if self.process and self.process.poll() is None:
            self.process.send_signal(signal.SIGTERM)
        self.thread.join(10)

    def statuses(self):
        return [status for _, status in self.ends]
