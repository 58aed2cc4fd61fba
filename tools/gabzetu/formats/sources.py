"""The bytes of capture files: pieces and lines of a file or pipe, also packed by gzip, that may still grow."""
import gzip
import io
import os
import stat
import sys
import time
from typing import Any

from ..errors import UNREADABLE, Stop, reason_of

PAUSE = 0.1
LONGEST = 1 << 24
BUFFER = 1 << 16
GZIP = b'\x1f\x8b'


class Ended(Exception):
    """A capture that can't be read on: its last packet isn't whole, or is of an interface that isn't described."""

    def __init__(self, reason: str = 'the file ends within it') -> None:
        super().__init__(reason)
        self.reason = reason


class Source:
    """A file that is read in whole pieces. One that waits goes on at its end when the file has grown."""

    def __init__(self, file: Any, waits: bool = False, opened: Any = None) -> None:
        self.file, self.waits, self.opened, self.position = file, waits, opened, 0

    def close(self) -> None:
        """Closes the file that was opened for it. Standard input stays open."""
        if self.opened:
            self.opened.close()

    def read(self, size: int) -> bytes:
        """Returns the next bytes: fewer than `size` at the end of the file only."""
        if size > LONGEST:
            raise ValueError(f'a piece of {size} bytes is in it')
        data = self.file.read(size) or b''
        while len(data) < size:
            more = self.file.read(size - len(data))
            if not more and not self.waits:
                break
            if not more:
                time.sleep(PAUSE)
            data += more or b''
        self.position += len(data)
        return data

    def line(self, most: int) -> bytes:
        """Returns the next line of at most so many bytes. It has no line feed at the end of the file only."""
        data = b''
        while not data.endswith(b'\n') and len(data) <= most:
            more = self.file.readline(most + 1 - len(data))
            if not more and not self.waits:
                break
            if not more:
                time.sleep(PAUSE)
            data += more
        self.position += len(data)
        if len(data) > most:
            raise ValueError(f'a line of more than {most} bytes is in it')
        return data


class Peeked(io.RawIOBase):
    """A stream whose first bytes were read already, as that of a pipe, which can't go back."""

    def __init__(self, first: bytes, file: Any) -> None:
        super().__init__()
        self.first, self.file = first, file

    def readable(self) -> bool:
        """Returns true: it can be read."""
        return True

    def readinto(self, buffer: Any) -> int:
        """Fills a buffer, first with the bytes that were looked at, and returns their number."""
        data = self.first[: len(buffer)] or self.file.read1(len(buffer))
        self.first = self.first[len(data) :]
        buffer[: len(data)] = data
        return len(data)


def open_source(path: str, is_followed: bool = False) -> Source:
    """Returns the source of a path, `-` for standard input. What gzip packed is unpacked. A file that is followed may
    grow."""
    opened = None
    try:
        opened = None if path == '-' else open(path, 'rb')
        file = opened or sys.stdin.buffer
        waits = is_followed and stat.S_ISREG(os.fstat(file.fileno()).st_mode)
        first = Source(file, waits).read(2)
    except OSError as error:
        if opened:
            opened.close()
        raise Stop(f'{path}: cannot be read: {reason_of(error)}', UNREADABLE) from error
    whole = io.BufferedReader(Peeked(first, file), BUFFER)
    if first == GZIP:
        return Source(gzip.GzipFile(fileobj=whole), False, opened)
    return Source(whole, waits, opened)
