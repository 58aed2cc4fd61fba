"""Sessions of tc_centre that are killed by SIGKILL: at a moment, or at one of their system calls.

A session gets all its lines at once, and then the end of its input. So it works without a pause until it is
killed, or ends by itself."""
from __future__ import annotations

import ctypes
import os
import signal
import subprocess
import tempfile
import threading
import time
from typing import IO, List

SECONDS = 120
# An answer that was written before it was stored would be missing after these.
STOPS_AFTER = 3
TRACE_ME, NEXT_CALL, OPTIONS, KILL_AT_EXIT = 0, 24, 0x4200, 0x100000
LIBC = ctypes.CDLL(None, use_errno=True)
LIBC.ptrace.argtypes = [ctypes.c_long, ctypes.c_long, ctypes.c_void_p, ctypes.c_void_p]
LIBC.ptrace.restype = ctypes.c_long


class Stuck(Exception):
    """A session that didn't end although its input had ended."""


class Killed:
    """The result of a session: its whole lines, and whether it was killed before it ended by itself."""

    def __init__(self, output: bytes, status: int) -> None:
        self.lines = output.decode('ascii', 'replace').split('\n')[:-1]
        self.status, self.is_killed = status, status == -signal.SIGKILL


def text_of(lines: list[str]) -> bytes:
    """Returns the bytes of the lines of a session."""
    return ''.join(f'{line}\n' for line in lines).encode('ascii')


def run(program: str, store: str, lines: list[str], delay: float | None = None) -> tuple[Killed, float]:
    """Runs a session, and kills it after that many seconds, or never. Returns it, and the seconds that it took."""
    began, out = time.monotonic(), []
    process = subprocess.Popen([program, store], stdin=subprocess.PIPE, stdout=subprocess.PIPE)
    talk = threading.Thread(target=lambda: out.append(process.communicate(text_of(lines))[0]))
    talk.start()
    talk.join(SECONDS if delay is None else delay)
    is_stuck = delay is None and talk.is_alive()
    process.kill()
    talk.join()
    if is_stuck:
        raise Stuck(f'the session did not end within {SECONDS} seconds')
    return Killed(out[0], process.returncode), time.monotonic() - began


def run_until(program: str, store: str, lines: list[str], size: int) -> Killed:
    """Runs a session that gets all its lines at once, and kills it when it has written so many bytes."""
    with tempfile.TemporaryFile() as source, tempfile.TemporaryFile() as sink:
        source.write(text_of(lines))
        source.seek(0)
        # this process has priority on a busy processor, or the session ends before its output is read
        process = subprocess.Popen([program, store], stdin=source, stdout=sink, preexec_fn=lambda: os.nice(19))
        end = time.monotonic() + SECONDS
        # without a pause: an event takes some ten microseconds
        while os.fstat(sink.fileno()).st_size < size and process.poll() is None and time.monotonic() < end:
            pass
        process.kill()
        process.wait()
        sink.seek(0)
        return Killed(sink.read(), process.returncode)


def trace(request: int, pid: int, more: int | None = None) -> bool:
    """Makes a call of ptrace, and returns whether it succeeded."""
    return LIBC.ptrace(request, pid, None, more) == 0


def can_trace() -> bool:
    """Returns whether this machine lets a process trace its child."""
    return bool(traced(['/bin/true'], b'')[1])


def traced(words: list[str], given: bytes, last: int | None = None) -> tuple[Killed, list[int]]:
    """Runs a program whose input is these bytes, and kills it at the stop of that number, or never if it is None.

    A process stops before and after each system call. Returns the result, and how much the process had written at each
    stop, from the first one on."""
    with tempfile.TemporaryFile() as source, tempfile.TemporaryFile() as sink:
        source.write(given)
        source.seek(0)
        pid = started(words, source, sink)
        sizes: List[int] = []
        status = os.waitpid(pid, 0)[1]
        if os.WIFSTOPPED(status) and trace(OPTIONS, pid, KILL_AT_EXIT):
            status = follow(pid, sink, sizes, last)
        else:
            os.kill(pid, signal.SIGKILL)
        sink.seek(0)
        ended = -os.WTERMSIG(status) if os.WIFSIGNALED(status) else os.WEXITSTATUS(status)
        return Killed(sink.read(), ended), sizes


def started(words: list[str], source: IO, sink: IO) -> int:
    """Starts a program that waits to be traced, and returns its process number."""
    pid = os.fork()
    if pid == 0:
        try:
            os.dup2(source.fileno(), 0)
            os.dup2(sink.fileno(), 1)
            LIBC.ptrace(TRACE_ME, 0, None, None)
            os.execv(words[0], words)
        finally:
            os._exit(127)
    return pid


def follow(pid: int, sink: IO, sizes: list[int], last: int | None) -> int:
    """Lets a traced process go from stop to stop, and returns the status with which it ended."""
    while True:
        if len(sizes) == last:
            os.kill(pid, signal.SIGKILL)
            return os.waitpid(pid, 0)[1]
        sizes.append(os.fstat(sink.fileno()).st_size)
        if not trace(NEXT_CALL, pid):
            return os.waitpid(pid, 0)[1]
        status = os.waitpid(pid, 0)[1]
        if not os.WIFSTOPPED(status):
            return status


def stops(program: str, store: str, lines: list[str], passed: int) -> list[int]:
    """Returns the numbers of the stops of a session, which isn't killed: from the answer to its line of the number
    `passed` to shortly after its last answer."""
    session, sizes = traced([program, store], text_of(lines))
    before = session.lines[: session.lines.index(f'ok {passed}') + 1]
    bounds = (len(text_of(before)), sizes[-1])
    first, last = (next(at for at, size in enumerate(sizes) if size >= least) for least in bounds)
    return list(range(first, min(last + STOPS_AFTER, len(sizes))))


def run_to_stop(program: str, store: str, lines: list[str], number: int) -> Killed:
    """Runs a session, and kills it at the stop of that number. Returns the result."""
    return traced([program, store], text_of(lines), number)[0]
