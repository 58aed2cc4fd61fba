"""Faults of sessions: each call of `tc_centre` fails in turn, is interrupted, or moves a part."""
import re
from collections import Counter

from files_tries.cases import all_cases
from files_tries.faults import tried_on
from files_tries.scripts import HEAD, INIT, install_code

DRAW = "F0F1F2F3F4F5F6F7F8F9FAFBFCFDFEFF"
EVENTS = [
    f"provision d {install_code(1)}", f"provision e {install_code(2)}", "remove d via c", "list",
    f"provision d {install_code(3)}", f"roll {DRAW}", "timer", "timer", "backup", "timer", "switch",
    "remove e via c", f"provision e {install_code(2)}", "remove d via c",
]
OPENED = [*HEAD, "open"]
# The line that comes with each status, at the end of standard output. 0 and 4 have none.
STATUS_LINES = {3: "read fault\n", 6: "no memory\n", 7: "store fault\n", 12: "worn\n", 13: "busy\n"}


def answered(output):
    """Returns the number of lines whose answer came out whole."""
    return len(re.findall(r"^(?:ok|refuse) .*\n", output, re.M))


def seals(output):
    """Returns the key, the source and the counter of each sealed layer that came out whole."""
    return re.findall(r"^[0-9]+ seal [^ ]+ [^ ]+ [^ ]+ ([0-9A-F]+) ([0-9A-F]+) ([0-9]+) .*\n", output, re.M)


class SessionCase:
    """A session on a store, its whole output, and what the store shows after each prefix of its events."""

    def __init__(self, bench, name, content):
        self.bench, self.name, self.content = bench, f"session {name}", content
        self.commands, self.states = EVENTS, []
        for count in range(len(EVENTS) + 1):
            store = self.put()
            self.output = self.run_events(store, EVENTS[:count]).output
            self.states.append(bench.shown(store))

    def put(self):
        """Makes the store as it is before the session, and returns its path."""
        return self.bench.put("store", self.content)

    def run_events(self, store, events, fault=None, log=None):
        """Opens a session on a store, and lets these events happen."""
        return self.bench.run_session(store, [*OPENED, *events], fault=fault, log=log)

    def run(self, store, fault=None, log=None):
        """Runs the session on a store; a call may be spoiled, and the calls may be logged."""
        return self.run_events(store, EVENTS, fault, log)

    def calls(self):
        """Returns the calls of the session, served alone."""
        log = self.bench.path("calls")
        self.run(self.put(), log=log)
        return self.bench.logged(log)

    def is_said(self, ran):
        """Returns whether standard error has as many lines as the status wants: two for a fault of the store."""
        return ran.said.count("\n") == (0 if ran.status == 0 else 2 if ran.status == 7 else 1)

    def lines_of(self, ran):
        """Returns the answers of a run, or None where they or the last line aren't what a fault may leave."""
        last = STATUS_LINES.get(ran.status, "" if ran.status in (0, 4) else None)
        if last is None or not ran.output.endswith(last):
            return None
        lines = ran.output[: len(ran.output) - len(last)]
        return lines if self.output.startswith(lines) else None

    def judge(self, store, lines):
        """Returns what is wrong with the store after these answers, or with a session that continues, or None."""
        told, shown = max(answered(lines) - len(OPENED), 0), self.bench.shown(store)
        if shown not in self.states[told : told + 2]:
            return f"{told} events were answered, and the store has {shown[:60]!r}"
        rest = self.run_events(store, EVENTS[told:])
        again = [seal for seal, number in Counter(seals(lines) + seals(rest.output)).items() if number > 1]
        return f"the rest ended with status {rest.status}, and was sealed again: {again}" if rest.status or again else None

    def check(self, ran, what, store):
        """Judges a run that was spoiled, the store that it left and the rest of the session."""
        lines = self.lines_of(ran)
        if lines is None:
            why = f"status {ran.status} with the output {ran.output[-80:]!r}"
        else:
            why = self.judge(store, lines)
        if why:
            self.bench.found(f"{what}: {why}", store, self.commands)


def sessions(bench, count, seed):
    """Tries COUNT faults of `tc_centre` at most, and returns the line of counts."""
    fresh = bench.put("fresh")
    bench.served(fresh, [INIT])
    with open(fresh, "rb") as it:
        contents = {"new": it.read()}
    _, old, gates, _ = all_cases(bench)
    contents.update(old=old.content, gates=gates.content)
    cases = [SessionCase(bench, name, content) for name, content in contents.items()]
    return tried_on(bench, "sessions", cases, count, seed)
