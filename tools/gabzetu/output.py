"""Reads inputs and writes outputs, by path or `-` for a standard stream. A failed command leaves no half-written
file, and no command overwrites its input."""
import contextlib
import os
import stat
import sys
import tempfile
from typing import Any, Iterable, Iterator, Optional, Union

from .errors import UNREADABLE, UNWRITABLE, WRONG_USE, Stop, reason_of

# The bytes that tc reads of an input, and the bytes that the front end reads of a file of its own.
MOST_OF_TC, MOST_OF_FILE = 1 << 24, 1 << 28
PRIVATE = 0o600


def read_at_most(path: str, most: int) -> bytes:
    """Returns the first bytes of a file, or of standard input if the path is `-`."""
    try:
        if path == '-':
            return sys.stdin.buffer.read(most)
        with open(path, 'rb') as file:
            return file.read(most)
    except OSError as error:
        raise Stop(f'{name_of(path)}: cannot be read: {reason_of(error)}', UNREADABLE) from error


def read_for_tc(path: str) -> bytes:
    """Returns what tc needs of an input: of one that is too long, enough for tc to say so."""
    return read_at_most(path, MOST_OF_TC + 1)


def read_input(path: str) -> bytes:
    """Returns the bytes of a file, or of standard input if the path is `-`. Stops if there are too many."""
    data = read_at_most(path, MOST_OF_FILE + 1)
    if len(data) > MOST_OF_FILE:
        raise Stop(f'{name_of(path)}: it is longer than {MOST_OF_FILE:,} bytes, and no more are read', UNREADABLE)
    return data


def name_of(path: str) -> str:
    """Returns how an input is named in messages."""
    return 'standard input' if path == '-' else path


def identity_of(path: Optional[str]) -> Optional[tuple]:
    """Returns what tells a regular file from others, for example if it has two names; or none of other paths."""
    try:
        found = os.fstat(sys.stdin.fileno()) if path == '-' else os.stat(path) if path else None
    except (OSError, ValueError):
        return None
    return (found.st_dev, found.st_ino) if found and stat.S_ISREG(found.st_mode) else None


def keep_inputs(read: Iterable[Optional[str]], written: Iterable[Optional[str]]) -> None:
    """Stops if a file that a command will write is one that it reads, or if it would write one file twice."""
    taken = {identity_of(path): path for path in read if path and identity_of(path)}
    for out in written:
        found = identity_of(out) if out and out != '-' else None
        if found in taken:
            raise Stop(
                f'{out}: the output is the same file as {name_of(taken[found])}, which it would overwrite. '
                'Give another name.',
                WRONG_USE,
            )
        if found and out:
            taken[found] = out


def is_written_in_place(path: str) -> bool:
    """Returns whether a path is no regular file, for example /dev/null or a pipe: it can't be renamed over."""
    try:
        return not stat.S_ISREG(os.stat(path).st_mode)
    except OSError:
        return False


def mode_of(path: str, is_private: bool = False) -> int:
    """Returns the mode that a file at this path gets: that of the file it replaces, else what the umask leaves.

    A new file with keys may be read and written by its owner alone."""
    try:
        return stat.S_IMODE(os.stat(path).st_mode)
    except OSError:
        mask = os.umask(0)
        os.umask(mask)
        return (PRIVATE if is_private else 0o666) & ~mask


@contextlib.contextmanager
def beside(path: str, is_private: bool = False) -> Iterator[Any]:
    """Yields a file beside `path`, which is renamed to it at the end, or removed if the body fails."""
    path = os.path.realpath(path)
    handle, other = tempfile.mkstemp(prefix='.gabzetu-', dir=os.path.dirname(path))
    try:
        with os.fdopen(handle, 'wb') as file:
            yield file
        os.chmod(other, mode_of(path, is_private))
        os.replace(other, path)
    except BaseException:
        os.unlink(other)
        raise


@contextlib.contextmanager
def open_output(path: Optional[str], is_private: bool = False) -> Iterator[Any]:
    """Yields a binary file that becomes `path` when the body succeeds. `-` or none is standard output.

    `is_private` says that keys are in it."""
    try:
        if path in (None, '-'):
            yield sys.stdout.buffer
            sys.stdout.buffer.flush()
        elif is_written_in_place(path):
            with open(path, 'wb') as file:
                yield file
        else:
            with beside(path, is_private) as file:
                yield file
    except BrokenPipeError:
        raise
    except OSError as error:
        name = 'standard output' if path in (None, '-') else path
        raise Stop(f'{name}: cannot be written: {reason_of(error)}', UNWRITABLE) from error


def write_output(path: Optional[str], data: Union[bytes, str], is_private: bool = False) -> None:
    """Writes bytes or text to a path, all or nothing. `-` or none is standard output.

    `is_private` says that keys are in it."""
    with open_output(path, is_private) as file:
        file.write(data.encode('utf-8', 'backslashreplace') if isinstance(data, str) else data)


def shown(text: str) -> str:
    """Returns a text, as the name of a file, in which what isn't printed is escaped: a terminal takes no orders from
    it."""
    return ''.join(it if it.isprintable() else ascii(it)[1:-1] for it in text)


def say(text: str) -> None:
    """Writes lines for people on standard error."""
    print('\n'.join(map(shown, text.split('\n'))), file=sys.stderr, flush=True)


def is_watched() -> bool:
    """Returns whether standard error is a terminal, so that progress is worth a line."""
    return sys.stderr.isatty()
