"""Faults: each call of a script fails in turn, is interrupted, or moves a part."""
import errno
import random
from collections import Counter

from files_tries.bench import read, some
from files_tries.cases import all_cases

# Each way to spoil a call, with its error and how often, and the names of its calls; None is all.
PARTS = ("read", "write")
WAYS = (
    ("fail", errno.EIO, 1, None),
    ("fail", errno.ENOSPC, 1, None),
    ("fail", errno.EINTR, 1, None),
    ("fail", errno.EINTR, 3, (*PARTS, "fsync")),
    ("short", 0, 1, PARTS),
    ("short", 0, 100000, PARTS),
    ("half", 0, 1, PARTS),
    ("half-fail", errno.EIO, 1, PARTS),
    ("half-fail", errno.ENOSPC, 1, PARTS),
    ("half-fail", errno.EINTR, 1, PARTS),
    ("nothing", 0, 1, ("write",)),
)


class Fault:
    """A way to spoil a call of a case's script."""

    def __init__(self, case, calls, at, way):
        self.case, self.call = case, calls[at]
        self.way, self.error, self.times, _ = way
        makes = [call.number for call in calls if call.name == "open" and call.file == -1]
        seeks = [call.number for call in calls if call.name == "lseek" and call.file > 2]
        # From the call that makes the file until its room is filled. The file is left empty if one of them fails.
        self.is_in_make = case.content is None and makes[0] <= self.call.number < seeks[0]

    def words(self):
        return f"{self.way} {self.call.number} {self.error} {self.times}"

    def __str__(self):
        why = f" with {errno.errorcode[self.error]}" if self.error else ""
        call = self.call
        return f"faults: {self.case.name}: call {call.number}, {call.name}({call.file}): {self.way}{why}"

    def statuses(self):
        """Returns the statuses that the program may end with."""
        name, file = self.call.name, self.call.file
        if name == "close" or name == "lseek" and file == 0:
            return (0,)
        is_repeated = self.error == errno.EINTR and name in (*PARTS, "fsync")
        if self.way in ("short", "half") or is_repeated:
            return (0,)
        failed = 3 if file == 0 else 4 if file == 1 else 7
        # One byte has no half. A question about the path may not matter. An interrupted call may be repeated.
        may_pass = self.way == "half-fail" or name == "statx" or self.error == errno.EINTR
        return (0, failed) if may_pass else (failed,)


def all_faults(case):
    """Returns each fault of a case's script."""
    calls, found = case.calls(), []
    for at, call in enumerate(calls):
        found += [Fault(case, calls, at, way) for way in WAYS if way[3] is None or call.name in way[3]]
    return found


def writes_after_failed_sync(calls):
    """Returns whether the store is written after one of its syncs failed."""
    failed = [call for call in calls if call.name == "fsync" and call.result < 0]
    return any(call.name == "write" and call.file > 2 and call.number > failed[-1].number for call in calls if failed)


def names_error(fault, ran):
    """Returns whether standard error has the number of the error, if the store failed by one."""
    return ran.status != 7 or not fault.error or f"(error {fault.error} of the system)" in ran.said


def judge(fault, ran, calls, store):
    """Returns what is wrong with a run except its output and its store, or None."""
    case = fault.case
    if ran.status not in fault.statuses():
        return f"status {ran.status}, which isn't one of {fault.statuses()}"
    if ran.status == 0 and ran.output != case.output:
        return f"status 0 with another output: {ran.output[-80:]!r}"
    if not case.is_said(ran) or not names_error(fault, ran):
        return f"standard error says {ran.said!r}"
    if fault.error != errno.EINTR and writes_after_failed_sync(calls):
        return "the store was written after a failed sync"
    if fault.is_in_make and ran.status == 7 and read(store):
        return "a half made file was left"
    return None


def try_fault(fault):
    """Tests a fault, checks what it left, and returns the status."""
    case, log = fault.case, fault.case.bench.path("calls")
    store = case.put()
    ran = case.run(store, fault=fault.words(), log=log)
    why = judge(fault, ran, case.bench.logged(log), store)
    if why:
        case.bench.found(f"{fault}: {why}", store, case.commands)
    case.check(ran, str(fault), store)
    return ran.status


def faults(bench, count, seed):
    """Tries COUNT faults of `tc admin` at most, and returns the line of counts."""
    return tried_on(bench, "faults", all_cases(bench), count, seed)


def tried_on(bench, what, cases, count, seed):
    """Tries COUNT faults of these cases at most, and returns the line of counts."""
    every = [fault for case in cases for fault in all_faults(case)]
    tried = some(every, count, random.Random(seed))
    statuses = Counter(try_fault(fault) for fault in bench.each(what, tried, len(tried)))
    ends = ", ".join(f"{number} with status {status}" for status, number in sorted(statuses.items(), key=str))
    return f"{len(tried)} faults, of which ended {ends}"
