"""The scripts that are spoiled at each moment, and the checks of what is left of their stores."""
import os

from files_tries.bench import read
from files_tries.scripts import INIT, acknowledged, comes_again, provision, split_status, turns

BACKUP = (
    '{"active":0,"aps":3,"links":[{"attribute":2,"code":true,"floor":7,"key":"66B6900981E1EE3CA4206B6B861C02BB",'
    '"live":true,"partner":"00124B0000000002","told":false}],'
    '"nets":[{"floors":[{"floor":9,"sender":"00124B0000000002"}],"key":"000102030405060708090A0B0C0D0E0F","limit":4,'
    '"live":true,"sequence":0,"started":true}],"nwk":0,"pairs":[],"roll":"idle","version":3}'
)
NEW = [
    INIT, provision("d", 1), provision("e", 2), "list", "remove d via c", provision("d", 3), "backup",
    "remove e via c", INIT, provision("e", 2), "remove d via c", "remove e via c",
]
# 29 commits, so that the 33rd, which writes the whole record, is in the script.
COMMITS = [INIT, *turns(28), provision("r", 5)]
OLD = [
    provision("d", 1), provision("e", 2), "remove d via r", "list", provision("d", 3), "remove e via c", "backup",
    "remove d via c", provision("d", 9), provision("d", 9), "remove d via r", provision("e", 11),
]
RESTORED = [
    f"restore 10 {BACKUP}", "remove d via c", provision("d", 1), provision("r", 5), "remove d via r", "list",
    provision("e", 2), "remove e via r", provision("d", 3), "backup", "remove r via c", provision("e", 2),
]


class Case:
    """A script of twelve commands on a store, its whole output, and what the store shows after each prefix of it."""

    def __init__(self, bench, name, content, commands):
        self.bench, self.name, self.content, self.commands = bench, name, content, commands
        self.states = []
        for count in range(len(commands) + 1):
            store = self.put(f"{name}.model")
            self.output = bench.served(store, commands[:count])
            self.states.append(bench.shown(store))
        self.rows = bench.served(store, ["list"])

    def put(self, name="store"):
        """Makes the store as it is before the script, and returns its path."""
        return self.bench.put(name, self.content)

    def run(self, store, fault=None, log=None):
        """Serves the script on a store; a call may be spoiled, and the calls may be logged."""
        return self.bench.run(store, self.commands, fault=fault, log=log)

    def calls(self):
        """Returns the calls of the script, served alone."""
        log = self.bench.path("calls")
        self.run(self.put(), log=log)
        return self.bench.logged(log)

    def is_said(self, ran):
        """Returns whether standard error has as many lines as the status wants."""
        return ran.said.count("\n") == (ran.status != 0)

    def lines_of(self, ran):
        """Returns the commands' lines of a run, or None if they or the status aren't what a fault may leave."""
        lines = split_status(ran.status, ran.output)
        return lines if lines is not None and self.output.startswith(lines) else None

    def is_in_first(self, told):
        """Returns whether nothing is promised about the store: its first command makes it and isn't acknowledged."""
        return self.content is None and told == 0

    def judge(self, output, shown):
        """Returns what is wrong with what a store shows after this output, or None."""
        told = acknowledged(output)
        if not self.output.startswith(output):
            return f"the output is no prefix: {output[-80:]!r}"
        if self.is_in_first(told) and shown.startswith(("status 8:", "status 11:")):
            return None
        if shown in self.states[told : told + 2]:
            return None
        stored = [count for count, state in enumerate(self.states) if state == shown]
        return f"{told} commands were acknowledged, and the store has {stored or repr(shown[:60])}"

    def judge_rest(self, store, output):
        """Continues after this output, and returns what is wrong with that, or None.

        A file that isn't a store, because making it was cut short, is deleted first.
        """
        told = acknowledged(output)
        if self.is_in_first(told) and self.bench.shown(store).startswith("status"):
            os.remove(store)
        rest = self.bench.run(store, self.commands[told:])
        again = comes_again(output, rest.output)
        if rest.status != 0 or again:
            return f"the rest ended with status {rest.status}, and these counters came again: {again}"
        rows = self.bench.run(store, ["list"]).output
        return None if rows == self.rows else f"after the rest the store lists {rows[:60]!r}"

    def check(self, ran, what, store):
        """Checks a spoiled run, the store that it left and the rest of the script."""
        lines = self.lines_of(ran) if ran.status != -9 else ran.output
        if lines is None:
            why = f"status {ran.status} with the output {ran.output[-80:]!r}"
        else:
            why = self.judge(lines, self.bench.shown(store)) or self.judge_rest(store, lines)
        if why:
            self.bench.found(f"{what}: {why}", store, self.commands)


def two_gates(bench, case):
    """Returns the bytes of a store that was cut during a whole record's commit, with the gates of both slots open."""
    for call in (call for call in case.calls() if call.name == "write"):
        store = case.put()
        bench.run(store, case.commands, fault=f"kill-after {call.number} 0 1")
        content = read(store)
        if content[0] == content[65536] == 0xA5:
            return content
    raise SystemExit("files: no moment of the script had two open gates")


def all_cases(bench):
    """Returns the four cases: a new store, one before a whole record, one with two open gates, and a restored one."""
    if bench.cases is None:
        store = bench.put("base")
        bench.served(store, COMMITS)
        new = Case(bench, "new", None, NEW)
        old = Case(bench, "old", read(store), OLD)
        gates = Case(bench, "gates", two_gates(bench, old), OLD[6:] + OLD[:6])
        bench.cases = [new, old, gates, Case(bench, "restored", None, RESTORED)]
    return bench.cases
