"""Two processes on one store: one succeeds and the other is refused, and no counter is used twice."""
import os
import random
import signal
import threading

from files_tries.bench import Ran, read, some
from files_tries.cases import all_cases
from files_tries.scripts import INIT, acknowledged, comes_again, provision, turns

FIRST = [INIT, provision("d", 1), "remove d via c", provision("d", 2)]
SECOND = [INIT, provision("e", 3), "remove e via c", provision("e", 4)]
BUSY = (13, "busy\n")
# The second one finds the store locked, or made meanwhile.
REFUSED = (BUSY, (7, "store fault\n"))


def stopped(process):
    """Waits until a process stops or ends, and returns whether it stopped."""
    _, status = os.waitpid(process.pid, os.WUNTRACED)
    if os.WIFSTOPPED(status):
        return True
    process.returncode = -os.WTERMSIG(status) if os.WIFSIGNALED(status) else os.WEXITSTATUS(status)
    return False


def ended(process, by):
    """Sends a signal to a process that stopped, and returns how it ends."""
    if process.returncode is None:
        os.kill(process.pid, by)
    output, said = process.communicate()
    return Ran(process.returncode, output.decode("latin1"), said.decode("latin1"))


def rows_of(listed):
    """Returns the link rows of a list without their places."""
    return sorted(line.split(" ", 2)[2] for line in listed.splitlines() if line.startswith("link "))


class Pair:
    """The result of two scripts on a store, run by two processes."""

    def __init__(self, bench, name, content, first, second):
        self.bench, self.name, self.content, self.first, self.second = bench, name, content, first, second

    def put(self):
        return self.bench.put("store", self.content)

    def calls(self):
        return self.bench.calls(self.put(), self.first)

    def expected(self, served):
        """Returns the rows of the store after these scripts, one after the other."""
        model = self.bench.put("model", self.content)
        for commands in served:
            self.bench.served(model, commands)
        return rows_of(self.bench.served(model, ["list"]))

    def judge(self, store, runs):
        """Returns what is wrong after these runs, in the order in which they got the store, or None."""
        for ran, commands in runs:
            if ran.status != 0 and (ran.status, ran.output) not in REFUSED:
                return f"one ended with status {ran.status} and {ran.output[-60:]!r}"
        again = comes_again(*(ran.output for ran, _ in runs))
        if again:
            return f"these counters came again: {again}"
        listed = self.bench.run(store, ["list"])
        rows = rows_of(listed.output) if listed.status == 0 else f"status {listed.status}: {listed.output[:60]!r}"
        expected = self.expected([commands for ran, commands in runs if ran.status == 0])
        return None if rows == expected else f"of acknowledged rows {expected} the store has {rows}"

    def check(self, what, store, runs):
        why = self.judge(store, runs)
        if why:
            said = ", ".join(str(ran.status) for ran, _ in runs)
            self.bench.found(f"two: {self.name}: {what}: statuses {said}: {why}", store, self.second)


def lock_of(calls):
    """Returns the number of the call that locks the store for the rest of the run: the last one that locks it.

    An empty file is locked once before, only to see that it is empty.
    """
    return [call.number for call in calls if call.name == "flock"][-1]


def is_locked_at(calls, number):
    """Returns whether a process has the lock before its call of a number, and keeps it."""
    return lock_of(calls) < number <= calls[-1].number


def held_at(pair, calls, number):
    """Holds the first process before a call, runs the second script, and lets the first one continue."""
    bench, store = pair.bench, pair.put()
    first = bench.start(store, pair.first, fault=f"stop {number} 0 1")
    stopped(first)
    before = read(store)
    second = bench.run(store, pair.second)
    if is_locked_at(calls, number):
        if (second.status, second.output) != BUSY or read(store) != before:
            bench.found(f"two: {pair.name}: held at call {number}: the second ended with {second}", store, pair.second)
    runs = [(second, pair.second), (ended(first, signal.SIGCONT), pair.first)]
    pair.check(f"the first was held before call {number}, {calls[number - 1].name}", store, runs)


def crossed_at(pair, calls, number):
    """Holds the first before it locks and the second after it did, and lets the first continue and then the second."""
    bench, store = pair.bench, pair.put()
    first = bench.start(store, pair.first, fault=f"stop {lock_of(calls)} 0 1")
    stopped(first)
    second = bench.start(store, pair.second, fault=f"stop {number} 0 1")
    stopped(second)
    runs = [(ended(first, signal.SIGCONT), pair.first), (ended(second, signal.SIGCONT), pair.second)]
    pair.check(f"the first was held before its lock and the second before call {number}", store, runs)


def killed_at(case, calls, number):
    """Holds a process before a call, checks that a second one is refused, kills the first and continues."""
    bench, store = case.bench, case.put()
    process = bench.start(store, case.commands, fault=f"stop {number} 0 1")
    stopped(process)
    before = read(store)
    second = bench.run(store, ["list"])
    if is_locked_at(calls, number) and ((second.status, second.output) != BUSY or read(store) != before):
        bench.found(f"two: {case.name}: held at call {number}: a second ended with {second}", store, case.commands)
    case.check(ended(process, signal.SIGKILL), f"two: {case.name}: killed at call {number} with the lock", store)


def hold(pairs, count, dice):
    """Holds the first process at each of its calls, for each pair; returns the number of tries."""
    every = []
    for pair in pairs:
        calls = pair.calls()
        every += [(held_at, pair, calls, call.number) for call in calls]
        every += [(crossed_at, pair, calls, call.number) for call in calls if is_locked_at(calls, call.number)]
    tried = some(every, count, dice)
    for way, pair, calls, number in pairs[0].bench.each("two, held", tried, len(tried)):
        way(pair, calls, number)
    return len(tried)


def kill(cases, count, dice):
    """Kills a process that has the lock at each of its calls; returns the number of tries."""
    every = []
    for case in cases:
        calls = case.calls()
        every += [(case, calls, call.number) for call in calls if is_locked_at(calls, call.number)]
    tried = some(every, count, dice)
    for case, calls, number in cases[0].bench.each("two, killed", tried, len(tried)):
        killed_at(case, calls, number)
    return len(tried)


def rounds(bench, count):
    """Starts two scripts at once, round after round on one store; returns how many were refused."""
    store = bench.put("rounds")
    bench.served(store, [INIT, provision("r", 5)])
    scripts = (turns(300, "d", "r"), turns(300, "e", "r", 800))
    pair, refused, outputs = Pair(bench, "rounds", None, *scripts), 0, []
    for number in bench.each("two, rounds", range(count), count):
        pair.content = read(store)
        processes = [bench.start(store, commands) for commands in scripts]
        runs = [(ended(process, signal.SIGCONT), commands) for process, commands in zip(processes, scripts)]
        refused += sum(ran.status == BUSY[0] for ran, _ in runs)
        pair.check(f"round {number}", store, runs)
        outputs += [ran.output for ran, _ in runs]
        if comes_again(*outputs):
            bench.found(f"two: round {number}: these counters came again: {comes_again(*outputs)}", store, scripts[0])
    return refused


def backups(bench, whole, commands):
    """Makes backups while a script runs. Returns how many were made and how many refused."""
    store, outputs = bench.put("store"), []
    served = threading.Thread(target=lambda: outputs.append(bench.run(store, commands)))
    served.start()
    made = []
    while served.is_alive():
        made.append(bench.run(store, ["backup"]))
    served.join()
    status, told, again = outputs[0].status, acknowledged(outputs[0].output), comes_again(outputs[0].output)
    if (status, outputs[0].output) == BUSY:  # a backup had the store at that moment
        return 0, 0
    if status != 0 or told != len(commands) or again:
        what = f"two: beside backups a script ended with {status}, {told} acknowledged, counters again {again}"
        bench.found(what, store, commands)
    for ran in made:
        if ran.status != 0 and (ran.status, ran.output) != BUSY:
            bench.found(f"two: a backup beside a script ended with {ran}", store, ["backup"])
    if bench.shown(store) != whole:
        bench.found("two: beside backups a script left another store than alone", store, commands)
    return len(made), sum(ran.status == BUSY[0] for ran in made)


def beside(bench, count):
    """Runs COUNT scripts of 2,000 commands with backups at the same time. Returns the numbers of backups."""
    commands, alone = [INIT, *turns(1999)], bench.put("whole")
    bench.served(alone, commands)
    whole = bench.shown(alone)
    tried = [backups(bench, whole, commands) for _ in bench.each("two, backups", range(count), count)]
    return sum(made for made, _ in tried), sum(refused for _, refused in tried)


def new_pairs(bench):
    """Returns the pairs that make one store: if there is no file, and if there is an empty one."""
    return [Pair(bench, "new", None, FIRST, SECOND), Pair(bench, "empty", b"", FIRST, SECOND)]


def makers(bench, count, seed):
    """Holds one of two makers of a store at up to COUNT calls, and returns the line of counts."""
    return f"{hold(new_pairs(bench), count, random.Random(seed))} pairs that make one store, one held at a call"


def two(bench, count, seed):
    """Tests two processes in each way, and returns the line of counts."""
    dice, cases = random.Random(seed), all_cases(bench)
    held = hold(
        [
            *new_pairs(bench),
            Pair(bench, "old", cases[1].content, FIRST, SECOND),
            Pair(bench, "a backup of two gates", cases[2].content, ["backup"], turns(40)),
        ],
        4 * count,
        dice,
    )
    killed = kill(cases[:2], 4 * count, dice)
    refused = rounds(bench, count)
    scripts = 1 + count // 10
    made, late = beside(bench, scripts)
    return (
        f"{held} pairs of which one was held at a call, {killed} killed with the lock, "
        f"{count} rounds with {refused} refused, {made} backups beside {scripts} scripts with {late} refused"
    )
