"""Kills: SIGKILL at each system call of a script, at each step of a write, and at random moments of long scripts."""
import random
import re
import threading
import time

from files_tries.bench import some
from files_tries.cases import all_cases
from files_tries.scripts import INIT, acknowledged, comes_again, provision

LONG = [provision("d", number // 2) if number % 2 == 0 else "remove d via c" for number in range(2000)]
WAYS = ("kill", "kill-half", "kill-after")


def system_calls(case):
    """Returns each system call of a case's script, as its name and its number among those of that name."""
    bench, log, seen = case.bench, case.bench.path("strace"), {}
    bench.run(case.put(), case.commands, before=["strace", "-f", "-o", log])
    with open(log, encoding="latin1") as it:
        names = re.findall(r"^\d+ +(\w+)\(", it.read(), re.M)
    found = []
    for name in names[1:]:
        seen[name] = seen.get(name, 0) + 1
        found.append((name, seen[name]))
    return found


def kill_at_system_calls(cases, count, dice):
    """Kills at each system call with strace. Returns the number of runs."""
    every = [(case, *call) for case in cases for call in system_calls(case)]
    tried = some(every, count, dice)
    for case, name, number in cases[0].bench.each("kills at system calls", tried, len(tried)):
        store = case.put()
        how = ["-e", f"trace={name}", "-e", f"inject={name}:signal=KILL:when={number}"]
        ran = case.bench.run(store, case.commands, before=["strace", "-f", "-o", "/dev/null", *how])
        case.check(ran, f"kills: {case.name}: killed at {name} {number}", store)
    return len(tried)


def kill_at_calls(cases, count, dice):
    """Kills before, within and after each call of the store and the streams. Returns the number of runs."""
    every = []
    for case in cases:
        for call in case.calls():
            every += [(case, call, way) for way in WAYS if way != "kill-half" or call.name == "write"]
    tried = some(every, count, dice)
    for case, call, way in cases[0].bench.each("kills at calls", tried, len(tried)):
        store = case.put()
        ran = case.bench.run(store, case.commands, fault=f"{way} {call.number} 0 1")
        case.check(ran, f"kills: {case.name}: {way} at call {call.number}, {call.name}", store)
    return len(tried)


class Long:
    """A script of 2,000 commands on one store, by runs of which each is killed at a random moment."""

    def __init__(self, bench, dice):
        self.bench, self.dice = bench, dice
        store = bench.put("whole")
        began = time.monotonic()
        bench.served(store, [INIT, *LONG])
        self.longest = time.monotonic() - began
        self.rows = bench.served(store, ["list"]).splitlines()[1:-1]
        self.killed = self.acknowledged = 0
        self.begin()

    def begin(self):
        """Begins with a new store."""
        self.store, self.done, self.outputs = self.bench.put("store"), 0, []
        self.bench.served(self.store, [INIT])

    def stored(self):
        """Returns how many commands a store holds, or None if its rows aren't those of a prefix."""
        rows = [row for row in self.bench.shown(self.store).splitlines() if row.startswith("link ")]
        count = 2 * len(rows) - (1 if rows and rows[-1].endswith(" live") else 0)
        expected = self.rows[: len(rows)]
        if count % 2:
            expected[-1] = expected[-1].replace(" dropped", " live")
        return count if rows == expected else None

    def run_killed(self):
        """Runs the rest of the script, kills the process, and returns the output."""
        process = self.bench.start(self.store, LONG[self.done :])
        output = []
        reader = threading.Thread(target=lambda: output.append(process.stdout.read()))
        reader.start()
        time.sleep(self.dice.uniform(0, self.longest))
        process.kill()
        reader.join()
        process.stderr.close()
        self.killed += process.wait() != 0
        return output[0].decode("latin1")

    def round(self):
        """Kills one run and checks what it left."""
        output = self.run_killed()
        told, stored = acknowledged(output), self.stored()
        self.acknowledged += told
        self.outputs.append(output)
        if stored is None or not self.done + told <= stored <= self.done + told + 1:
            what = f"kills: {told} commands after {self.done} were acknowledged, and the store has {stored}"
            self.bench.found(what, self.store, LONG)
        if comes_again(*self.outputs):
            self.bench.found(f"kills: counters came again: {comes_again(*self.outputs)}", self.store, LONG)
        self.done = stored or 0
        if stored is None or self.done > 1500:
            self.begin()


def kill_at_moments(bench, count, dice):
    """Kills COUNT runs at random moments; returns the line of counts."""
    long = Long(bench, dice)
    for _ in bench.each("kills at random", range(count), count):
        long.round()
    return f"{count} at random moments, of which {long.killed} cut a script; {long.acknowledged} commands acknowledged"


def kills(bench, count, seed):
    """Tests the three kinds of kills, and returns the line of counts."""
    dice = random.Random(seed)
    cases = all_cases(bench)
    system = kill_at_system_calls(cases, count, dice)
    calls = kill_at_calls(cases, count, dice)
    moments = kill_at_moments(bench, count, dice)
    return f"{system} runs killed at a system call, {calls} before, within and after a call, and {moments}"
