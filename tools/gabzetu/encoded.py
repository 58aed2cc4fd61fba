"""File names of any bytes as words without control characters, and a call of the front end on such a name.

GNU parallel keeps a log with a line for each call, which a name with a line feed would break. So
`python3 encoded.py COMMAND ENCODED WORD ..` runs `gabzetu COMMAND FILE WORD ..`."""
import os
import sys
from typing import List
from urllib.parse import unquote_to_bytes

LONGEST_NAME, KEPT = 200, 40


def encode(name: str) -> str:
    """Returns a name in which bytes that aren't printed, quotes and `%` are `%` and two digits."""
    return ''.join(it if is_plain(it) else ''.join(f'%{byte:02X}' for byte in os.fsencode(it)) for it in name)


def is_plain(letter: str) -> bool:
    """Returns whether a letter of a name remains as it is."""
    return letter.isprintable() and letter not in '%"\'\\'


def decode(text: str) -> str:
    """Returns the name that a text encodes."""
    return os.fsdecode(unquote_to_bytes(text))


def result_name(name: str, number: int) -> str:
    """Returns the name of the file that gets what a call on a name wrote. It is no longer than a file system takes."""
    text = encode(name)
    return text if len(os.fsencode(text)) <= LONGEST_NAME else f'{number}-{text[:KEPT]}'


def main(words: List[str]) -> int:
    """Runs the front end, and returns its exit status."""
    from gabzetu.cli import main as front

    command, name, *rest = words
    return front([command, *rest, '--', decode(name)])


if __name__ == '__main__':
    sys.dont_write_bytecode = True
    sys.path[0] = os.path.dirname(os.path.dirname(os.path.realpath(__file__)))
    sys.exit(main(sys.argv[1:]))
