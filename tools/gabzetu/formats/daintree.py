"""Reads captures of Daintree's Sensor Network Analyzer (.dcf): text with a line for each packet.

A line has words with a space between them: a number, the time in seconds, the length, the bytes as hexadecimal digits,
and further words that aren't read. The check sequence isn't kept: two bytes of padding are in its place, and in the
length. Lines with a # are comments, the first two of each file among them. Wireshark reads the form in the same way."""
import re
from typing import Iterator, Tuple

from .sources import Ended, Source

MAGIC = b'#Format='
LINK = 230  # packets without a check sequence
PADDING = 2
MOST_OF_LINE = 4096
LINE = re.compile(rb'\S+[ \t]+(\d{1,18}\.\d{1,9})[ \t]+(\d{1,9})[ \t]+([0-9A-Fa-f]+)(?:\s.*)?', re.S)
FORM = 'its line has no number, time, length and bytes'


def begins(magic: bytes, source: Source) -> bool:
    """Returns whether a file is such a capture, by its first four bytes and those that follow."""
    return magic == MAGIC[:4] and source.line(MOST_OF_LINE).startswith(MAGIC[4:])


def read_line(line: bytes) -> Tuple[float, int, bytes, int]:
    """Returns time, link type, bytes and length of the packet of a line, or raises Ended."""
    found = LINE.fullmatch(line)
    if not found or len(found[3]) % 2:
        raise Ended(FORM if line.endswith(b'\n') else 'the file ends within it')
    kept, whole = bytes.fromhex(found[3].decode('ascii'))[:-PADDING], int(found[2]) - PADDING
    if not kept or len(kept) > whole:
        raise Ended(f'its line has {len(kept) + PADDING} bytes, and says {whole + PADDING}')
    return float(found[1]), LINK, kept, whole


def read_records(source: Source) -> Iterator[Tuple[float, int, bytes, int]]:
    """Yields time, link type, bytes and length of each packet, once the first line was read."""
    while True:
        line = source.line(MOST_OF_LINE)
        if not line:
            return
        if line.strip() and not line.startswith(b'#'):
            yield read_line(line)
