"""A line on standard error that says how long a command has been running, where a terminal shows it."""
import contextlib
import sys
import threading
import time
from typing import Iterator

from .output import is_watched

FIRST_AFTER = 1.0
CLEAR = '\r\x1b[K'


def show(text: str) -> None:
    """Writes a text in place of the line of progress."""
    sys.stderr.write(CLEAR + text)
    sys.stderr.flush()


def count_seconds(what: str, done: threading.Event) -> None:
    """Shows the seconds since the start, once a second, until `done` is set."""
    begun = time.monotonic()
    while not done.wait(FIRST_AFTER):
        show(f'gabzetu: {what}: {int(time.monotonic() - begun)} s ..')


@contextlib.contextmanager
def shown(what: str) -> Iterator[None]:
    """Shows on a terminal that `what` is going on, while the body runs."""
    if not is_watched():
        yield
        return
    done = threading.Event()
    thread = threading.Thread(target=count_seconds, args=(what, done), daemon=True)
    thread.start()
    try:
        yield
    finally:
        done.set()
        thread.join()
        show('')
