"""The bench of the tests: runs the program on stores in a folder of its own, and keeps what it finds wrong."""
import os
import shutil
import subprocess
import sys
import tempfile
import time
from collections import namedtuple

from files_tries import scripts

TOP = os.path.dirname(os.path.dirname(os.path.dirname(os.path.abspath(__file__))))
FOUND = f"{TOP}/out/files"
SECONDS = 600
MOST_KEPT = 20

Ran = namedtuple("Ran", "status output said")


class Bench:
    """A program, a folder for its stores, and the violations that were found."""

    def __init__(self, program, room, centre=None):
        self.program = os.path.abspath(program)
        self.centre = centre and os.path.abspath(centre)
        self.room = room
        self.library = None
        self.cases = None
        self.violations = 0

    def path(self, name):
        return f"{self.room}/{name}"

    def compile_calls(self):
        """Compiles the library that counts, logs and spoils calls."""
        source = os.path.join(os.path.dirname(os.path.abspath(__file__)), "calls.c")
        library = self.path("calls.so")
        subprocess.run(["cc", "-O2", "-shared", "-fPIC", "-o", library, source], check=True)
        self.library = library

    def surroundings(self, fault=None, log=None):
        """Returns the environment of a run in which a call is spoiled, or calls are logged."""
        env = dict(os.environ, LD_PRELOAD=self.library)
        if fault:
            env["FAULT"] = fault
        if log:
            env["CALLS"] = log
        return env

    def run(self, store, commands, fault=None, log=None, before=(), **how):
        """Serves commands on a store; returns the status, the output and what standard error said."""
        words = [*before, self.program, "admin", store]
        return self.ran(words, scripts.script(commands), fault, log, **how)

    def run_session(self, store, lines, fault=None, log=None):
        """Serves the lines of a session on a store; returns the same."""
        return self.ran([self.centre, store], ("\n".join(lines) + "\n").encode(), fault, log)

    def ran(self, words, given, fault, log, **how):
        """Runs a program on these bytes; returns the status, the output and what standard error said."""
        env = self.surroundings(fault, log) if fault or log else None
        how = {"stdout": subprocess.PIPE, "stderr": subprocess.PIPE, "timeout": SECONDS, "close_fds": False, **how}
        try:
            ran = subprocess.run(words, input=given, env=env, **how)
        except subprocess.TimeoutExpired:
            return Ran("no end", "", "")
        return Ran(ran.returncode, (ran.stdout or b"").decode("latin1"), (ran.stderr or b"").decode("latin1"))

    def start(self, store, commands, fault=None, log=None):
        """Starts the program on a store, with its whole script, and returns the process."""
        env = self.surroundings(fault, log) if fault or log else None
        with tempfile.TemporaryFile(dir=self.room) as given:
            given.write(scripts.script(commands))
            given.seek(0)
            how = {"stdin": given, "stdout": subprocess.PIPE, "stderr": subprocess.PIPE, "close_fds": False}
            return subprocess.Popen([self.program, "admin", store], env=env, **how)

    def served(self, store, commands):
        """Runs commands that must succeed, and returns the output."""
        ran = self.run(store, commands)
        if ran.status != 0:
            sys.exit(f"files: a run without any fault ended with status {ran.status}: {ran.output[-200:]!r}")
        return ran.output

    def shown(self, store):
        """Returns what `list` and `backup` show of a store, with the status before it if that isn't 0."""
        ran = self.run(store, ["list", "backup"])
        return ran.output if ran.status == 0 else f"status {ran.status}: {ran.output}"

    def shown_of_each(self, images):
        """Returns what each of these images shows, as `shown` does, with one process that forks. None is no file."""
        for number, image in enumerate(images):
            self.put(f"image{number:06}", image)
        with open(self.path("script"), "wb") as it:
            it.write(scripts.script(["list", "backup"]))
        env = dict(os.environ, LD_PRELOAD=self.library, STORES=str(len(images)), SCRIPT=self.path("script"))
        words = [self.program, "admin", self.path("image000000")]
        ran = subprocess.run(words, env=env, stdout=subprocess.PIPE, stderr=subprocess.DEVNULL, check=True)
        outputs = [read(self.path(f"image{number:06}.out")).decode("latin1") for number in range(len(images))]
        statuses = ran.stdout.decode().split()
        return [out if status == "0" else f"status {status}: {out}" for status, out in zip(statuses, outputs)]

    def put(self, name, content=None):
        """Makes a store of these bytes, or none, and returns its path."""
        path = self.path(name)
        if os.path.lexists(path):
            os.remove(path)
        if content is not None:
            with open(os.open(path, os.O_WRONLY | os.O_CREAT, 0o600), "wb") as it:
                it.write(content)
        return path

    def calls(self, store, commands):
        """Returns the calls of a run."""
        log = self.path("calls")
        self.run(store, commands, log=log)
        return self.logged(log)

    def logged(self, log):
        """Returns the calls of a log, and removes it."""
        with open(log, encoding="ascii") as it:
            lines = it.read().splitlines()
        os.remove(log)
        return [Call(*line.split(" ")) for line in lines]

    def each(self, what, tried, count):
        """Yields the first COUNT items, and reports the progress on standard error once a minute."""
        said = time.monotonic()
        for number, it in enumerate(tried):
            if number == count:
                return
            if time.monotonic() > said + 60:
                said = time.monotonic()
                print(f"files: {what}: {number} of {count}, {self.violations} violations", file=sys.stderr, flush=True)
            yield it

    def found(self, what, store=None, commands=()):
        """Reports what is wrong, and keeps the store and the script, for the first 20 violations."""
        self.violations += 1
        if self.violations > MOST_KEPT:
            return
        os.makedirs(FOUND, exist_ok=True)
        name = f"{FOUND}/{os.getpid()}-{self.violations}"
        with open(os.open(f"{name}.script", os.O_WRONLY | os.O_CREAT | os.O_TRUNC, 0o600), "wb") as it:
            it.write(scripts.script(commands))
        if store and os.path.isfile(store):
            shutil.copy(store, f"{name}.store")
        print(f"{what}: see {os.path.relpath(name, TOP)}.*", flush=True)


class Call:
    """A call of a log: its number, its name, its descriptor, its place in the file, its result and its bytes."""

    def __init__(self, number, name, file, place, result, given):
        self.number, self.name = int(number), name
        self.file, self.place, self.result = int(file), int(place), int(result)
        self.given = bytes.fromhex(given)


def some(cases, count, dice):
    """Returns all cases, or COUNT of them at random."""
    cases = list(cases)
    return cases if len(cases) <= count else dice.sample(cases, count)


def read(path):
    """Returns the bytes of a file, or None if there is none."""
    if not os.path.exists(path):
        return None
    with open(path, "rb") as it:
        return it.read()
