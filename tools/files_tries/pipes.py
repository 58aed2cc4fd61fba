"""Streams and paths: slow scripts, closed standard streams, paths that aren't files, modes, and what makes no file."""
import fcntl
import itertools
import os
import random
import socket
import subprocess
import time

from files_tries.bench import Ran, read
from files_tries.cases import NEW, Case
from files_tries.scripts import INIT, acknowledged, provision, script, split_status

WARNING = "tc: others may read or write "


def closing(*files):
    """Returns what closes these descriptors in the new process."""

    def close():
        for file in files:
            os.close(file)

    return close


def slow(bench, count, dice):
    """Sends COUNT scripts in pieces: nothing is written and no file is made before the end, and then everything is."""
    case = Case(bench, "slow", None, NEW)
    for _ in bench.each("slow scripts", range(count), count):
        store, text = case.put(), script(NEW)
        how = {"stdin": subprocess.PIPE, "stdout": subprocess.PIPE, "stderr": subprocess.PIPE}
        process = subprocess.Popen([bench.program, "admin", store], **how)
        cuts = sorted(dice.sample(range(1, len(text)), 6))
        for start, end in zip([0, *cuts], [*cuts, len(text)]):
            process.stdin.write(text[start:end])
            process.stdin.flush()
            time.sleep(0.02)
            is_early = os.path.lexists(store)
        output, said = process.communicate()
        ran = Ran(process.returncode, output.decode("latin1"), said.decode("latin1"))
        if ran != Ran(0, case.output, "") or is_early or bench.shown(store) != case.states[-1]:
            what = f"pipes: a slow script ended with {ran.status}, said {ran.said!r}, early file {is_early}"
            bench.found(what, store, NEW)
    return count


def slow_reader(bench):
    """Reads the answers one by one: when a line comes, the store already has its command."""
    case = Case(bench, "reader", None, NEW)
    store = case.put()
    how = {"stdin": subprocess.PIPE, "stdout": subprocess.PIPE, "stderr": subprocess.PIPE}
    process = subprocess.Popen([bench.program, "admin", store], **how)
    process.stdin.write(script(NEW))
    process.stdin.close()
    output = ""
    for line in process.stdout:
        output += line.decode("latin1")
        shown = bench.shown(bench.put("copy", read(store)))
        if shown not in case.states[acknowledged(output) - (not line.startswith((b"ok", b"refuse"))) :]:
            bench.found(f"pipes: after {output[-40:]!r} the store doesn't have that command", bench.path("copy"), NEW)
    process.stderr.close()
    if process.wait() != 0:
        bench.found(f"pipes: a slow reader ended the script with {process.returncode}", store, NEW)
    return 1


def closed_streams(bench, content):
    """Closes each set of the standard streams, on a new and on an old store whose mode is open to others."""
    tried = 0
    cases = [Case(bench, "closed", None, NEW), Case(bench, "closed", content, NEW[1:])]
    sets = [files for size in range(1, 4) for files in itertools.combinations(range(3), size)]
    for case, files, mode in itertools.product(cases, sets, (0o600, 0o644)):
        store = case.put()
        if case.content is not None:
            os.chmod(store, mode)
        # the stream itself is inherited, and then closed
        streams = {name: None for file, name in ((1, "stdout"), (2, "stderr")) if file in files}
        ran = bench.run(store, case.commands, preexec_fn=closing(*files), **streams)
        check_closed(case, files, ran, store)
        tried += 1
    return tried


def check_closed(case, files, ran, store):
    """Checks a run with closed streams: its status and what its store holds."""
    expected = 4 if 1 in files else 3 if 0 in files else 0
    what = f"pipes: with {files} closed on {'a new' if case.content is None else 'an old'} store"
    if ran.status != expected:
        case.bench.found(f"{what} it ended with {ran.status}, not {expected}", store, case.commands)
    lines = split_status(ran.status, ran.output) if 1 not in files else ""
    told = len(case.commands) if ran.status == 0 else 0
    if not os.path.exists(store):
        why = None if 0 in files and case.content is None else "no file was made"
    else:
        shown = case.bench.shown(store)
        why = None if shown in case.states[told : told + 2] else f"the store shows {shown[:60]!r}"
    if 0 in files and read(store) != case.content:
        why = "the store was changed, though no script was read"
    if lines is None or why:
        case.bench.found(f"{what}: {why or ran.output}", store, case.commands)


def full_output(bench, content):
    """Writes to a full device and to a pipe that nobody reads: status 4, and the store after a prefix."""
    case = Case(bench, "full", content, NEW[1:])
    ends = os.pipe()
    os.close(ends[0])
    with open("/dev/full", "wb") as full, os.fdopen(ends[1], "wb") as broken:
        for output in (full, broken):
            store = case.put()
            ran = bench.run(store, case.commands, stdout=output)
            if ran.status != 4 or bench.shown(store) not in case.states[:2]:
                bench.found(f"pipes: an output that can't be written ended with {ran.status}", store, case.commands)
    return 2


def odd_paths(room):
    """Makes what isn't a file, and returns each path with the status that it must have."""
    os.mkdir(f"{room}/folder")
    os.mkfifo(f"{room}/fifo")
    os.symlink("nowhere", f"{room}/link")
    os.symlink("loop", f"{room}/loop")
    with open(f"{room}/file", "wb") as it:
        it.write(b"no store at all")
    unix = socket.socket(socket.AF_UNIX)
    unix.bind(f"{room}/socket")
    unix.close()
    things = ("folder", "folder/", ".", "fifo", "link", "loop", "socket")
    nothings = ("none/store", "file/store", "name/", "n" * 256, "p/" * 2500)
    devices = [f"/dev/{name}" for name in ("null", "zero", "full", "urandom") if os.path.exists(f"/dev/{name}")]
    faults = [*(f"{room}/{name}" for name in things + nothings), *devices, ""]
    return [*((path, 7) for path in faults), (f"{room}/file", 8), (os.fsencode(room) + b"/\xff", 2)]


def holds(room):
    """Returns what is in a folder, by name, kind and content."""
    found = {}
    for at, folders, files in os.walk(room):
        for name in folders + files:
            path = os.path.join(at, name)
            found[path] = (os.lstat(path).st_mode, read(path) if os.path.isfile(path) else None)
    return found


def paths(bench):
    """Runs each script on each path that isn't a file: its answer, nothing made and nothing changed."""
    room = bench.path("paths")
    os.mkdir(room)
    tried = odd_paths(room)
    before = holds(room)
    scripts = ([INIT, provision("d", 1)], ["list"], ["backup"], ["remove d via c"])
    for (path, status), commands in itertools.product(tried, scripts):
        ran = bench.run(path, commands, cwd=room)
        if ran.status != status or split_status(ran.status, ran.output) != "":
            what = f"{commands[0].split()[0]} on {path[-40:]!r}"
            bench.found(f"pipes: {what} ended with {ran.status} and {ran.output!r}", None, commands)
        if holds(room) != before:
            raise SystemExit(f"files: {commands[0]} on {path!r} changed its folder")
    return len(tried) * len(scripts)


def missing(bench):
    """Runs what needs no file on no file and on an empty one: it reads as empty, and nothing is made or changed."""
    tried = 0
    several = ["list", provision("d", 1), "remove d via c", "backup"]
    scripts = ([], ["list"], ["backup"], several, ["boom"], ["init 00"])
    for content, commands in itertools.product((None, b""), scripts):
        store = bench.put("missing", content)
        ran = bench.run(store, commands)
        lines = "".join(f"refuse {5 + at} empty\n" for at in range(len(commands)))
        expected = Ran(5, "refused 5 syntax\n", ran.said) if commands in (["boom"], ["init 00"]) else Ran(0, lines, "")
        if ran != expected or read(store) != content:
            bench.found(f"pipes: {commands} on {content} ended with {ran.status} and {ran.output!r}", store, commands)
        tried += 1
    return tried


def names(bench):
    """Makes stores with odd names and through a link, each with its mode and size."""
    tried = 0
    os.symlink(bench.put("linked", b""), bench.path("alias"))
    for name in ("n" * 255, "--help", "with space", "line\nfeed", "alias", "é"):
        for mask in (0, 0o022, 0o077):
            store = bench.path(name)
            if name != "alias" and os.path.exists(store):
                os.remove(store)
            ran = bench.run(store, ["list"] if name == "alias" and mask else [INIT], preexec_fn=lambda: os.umask(mask))
            mode = os.stat(store).st_mode & 0o777 if os.path.exists(store) else 0
            if ran.status != 0 or mode != 0o600 or ran.said or os.path.getsize(store) != 131072:
                what = f"pipes: the store {name[:20]!r} was made with mode {mode:o}, status {ran.status}"
                bench.found(what, store, [INIT])
            tried += 1
    return tried


def modes(bench, content):
    """Uses a store of each mode: one line on standard error exactly if others may read or write it."""
    for mode in range(0o1000):
        if mode & 0o600 != 0o600 or mode & 0o111:
            continue
        store = bench.put("mode", content)
        os.chmod(store, mode)
        ran = bench.run(store, ["list"])
        lines = ran.said.splitlines()
        is_said = len(lines) == 1 and lines[0].startswith(WARNING) if mode & 0o077 else not lines
        if ran.status != 0 or not is_said:
            what = f"pipes: a store of mode {mode:o} ended with {ran.status} and says {ran.said!r}"
            bench.found(what, store, ["list"])
    return 16


def odd_warning(bench, content):
    """Warns in one line of a store whose name has a line feed."""
    store = bench.put("line\nfeed", content)
    os.chmod(store, 0o644)
    ran = bench.run(store, ["list"])
    if ran.status != 0 or ran.said.count("\n") != 1:
        bench.found(f"pipes: the warning for a name with a line feed is {ran.said!r}", None, ["list"])
    return 1


def locked(bench, content):
    """Locks a store by another program: the store is busy at once, and nothing is changed."""
    store = bench.put("locked", content)
    with open(store, "rb") as it:
        fcntl.flock(it, fcntl.LOCK_SH)
        for commands in (["list"], [provision("d", 9)], [INIT]):
            ran = bench.run(store, commands)
            if (ran.status, ran.output) != (13, "busy\n") or read(store) != content:
                bench.found(f"pipes: on a locked store {commands} ended with {ran.status}", store, commands)
    return 3


def pipes(bench, count, seed):
    """Tests streams and paths, and returns the line of counts."""
    dice = random.Random(seed)
    store = bench.put("base")
    bench.served(store, [INIT, provision("r", 5)])
    content = read(store)
    streams = slow(bench, count, dice) + slow_reader(bench)
    streams += closed_streams(bench, content) + full_output(bench, content)
    named = paths(bench) + missing(bench) + names(bench)
    return (
        f"{streams} runs with slow, closed and full streams, {named} on paths and names, "
        f"{modes(bench, content) + odd_warning(bench, content)} of modes, {locked(bench, content)} on a locked store"
    )
