"""The words of schedules, captures and scripts: what each place of a line wants, and what is wrong with a word
there.

A kind of word has `name`, as forms write it, `wanted`, which says what it takes, and `fault(word)`, which returns
what is wrong with a word as text after it, or none. docs/FORMATS.md has the rules."""
import difflib
import functools
import re
from typing import Any, Dict, List, Optional, Union

from .numbers import MOST_DIGITS, read_hexadecimal, read_number

GREATEST = 4294967295
LONGEST_NAME = 16
# No longer word is looked for among the known ones.
LONGEST_MEANT = 64
CODE_SIZES = (8, 10, 14, 18)
HEX_DIGITS = frozenset('0123456789abcdefABCDEF')


def near(word: str, words: Union[List[str], dict]) -> Optional[str]:
    """Returns the word that is nearest to another one, or none where none is near."""
    if len(word) > LONGEST_MEANT:
        return None
    found = difflib.get_close_matches(word.lower(), list(words), 1, 0.6)
    return found[0] if found else None


def suggestion(word: str, words: Union[List[str], dict]) -> str:
    """Returns `; did you mean ..?` with the nearest of some words, or nothing."""
    found = near(word, words)
    return f"; did you mean '{found}'?" if found else ''


def counted(number: int, what: str) -> str:
    """Returns a number and what it counts, in the plural where it isn't 1."""
    return f'{number} {what}' + ('' if number == 1 else 's')


TAKEN = {'NAME': 'name', 'EUI': 'EUI', 'SHORT': 'short address'}


def taken(values: dict, name: str, eui: str, short: str) -> Optional[tuple]:
    """Returns the word of a line that is taken by another node, and what it is; or none and none."""
    old = {'NAME': name, 'EUI': eui, 'SHORT': short}
    same = (key for key in TAKEN if (values[key].text if key == 'NAME' else values[key].text.upper()) == old[key])
    key = next(same, None)
    return (values[key], TAKEN[key]) if key else (None, None)


class Name:
    """The name of a node."""

    wanted = 'a name of 1 to 16 of a to z and 0 to 9'

    def __init__(self, name: str = 'NAME') -> None:
        self.name = name

    def fault(self, word: str) -> Optional[str]:
        """Returns what is wrong with a word, or none."""
        if len(word) > LONGEST_NAME:
            return f'a name has at most {LONGEST_NAME} characters, and this has {len(word)}'
        bad = re.search('[^a-z0-9]', word)
        if not bad:
            return None
        plain = re.sub('[^a-z0-9]', '', word.lower())
        hint = f"; '{plain}' would be one" if plain else ''
        return f"a name has only a to z and 0 to 9, and '{bad[0]}' is none of them{hint}"


class Number:
    """A decimal number between two limits."""

    def __init__(self, name: str, low: int, high: int) -> None:
        self.name, self.low, self.high = name, low, high
        self.wanted = f'a number from {low} to {high}'

    def fault(self, word: str) -> Optional[str]:
        """Returns what is wrong with a word, or none."""
        if word[:2] in ('0x', '0X') and read_hexadecimal(word[2:]) is not None:
            return f'numbers are decimal: write {read_hexadecimal(word[2:])}'
        if not re.fullmatch('[0-9]+', word):
            return f'{self.name} is {self.wanted}'
        if len(word) > 1 and word[0] == '0':
            return f'a number has no leading zeros: write {word.lstrip("0")[:MOST_DIGITS] or "0"}'
        number = read_number(word)
        return None if number is not None and self.low <= number <= self.high else f'{self.name} is {self.wanted}'


def fault_of_digits(word: str) -> Optional[str]:
    """Returns what keeps a word from being hexadecimal digits, or none."""
    if word[:2] in ('0x', '0X'):
        return f'digits have no 0x before them: write {word[2:].upper()}'
    plain = re.sub('[:.-]', '', word)
    if plain != word and plain and HEX_DIGITS.issuperset(plain):
        return f'digits have nothing between them: write {plain.upper()}'
    bad = next((it for it in word if it not in HEX_DIGITS), None)
    return None if bad is None else f"'{bad}' is no hexadecimal digit"


class Digits:
    """A certain number of hexadecimal digits."""

    def __init__(self, name: str, size: int, what: str) -> None:
        self.name, self.size = name, size
        self.wanted = f'{what} of {size} hexadecimal digits'

    def fault(self, word: str) -> Optional[str]:
        """Returns what is wrong with a word, or none."""
        fault = fault_of_digits(word)
        if fault or len(word) == self.size:
            return fault
        return f'{self.name} has {self.size} hexadecimal digits, and this has {len(word)}'


class Eui(Digits):
    """An EUI that a node can have."""

    def __init__(self, name: str = 'EUI') -> None:
        super().__init__(name, 16, 'an EUI')

    def fault(self, word: str) -> Optional[str]:
        """Returns what is wrong with a word, or none."""
        fault = super().fault(word)
        if fault is None and word.upper() in ('0' * 16, 'F' * 16):
            return f'an EUI of all {word[0].upper()} is no address of a node'
        return fault


class Bytes:
    """A string of bytes with limits on their number. `-` is none."""

    def __init__(self, name: str, low: int, high: int) -> None:
        self.name, self.low, self.high = name, low, high
        self.wanted = f'{low} to {high} bytes of 2 hexadecimal digits each' + ('' if low else ', or - for none')

    def fault(self, word: str) -> Optional[str]:
        """Returns what is wrong with a word, or none."""
        if word == '-':
            return f'{self.name} is {self.wanted}, so not -' if self.low else None
        fault = fault_of_digits(word)
        if fault:
            return fault
        if len(word) % 2:
            return f'a byte has 2 digits, and this has {counted(len(word), "digit")}, an odd number'
        if not self.low <= len(word) // 2 <= self.high:
            return f'{self.name} is {self.wanted}, and this has {len(word) // 2}'
        return None


class Code:
    """A string of bytes that may be an install code: whether it is one is no question of syntax."""

    name = 'CODE'
    wanted = 'an install code and its CRC'

    def fault(self, word: str) -> Optional[str]:
        """Returns what is wrong with a word, or none."""
        if word == '-':
            return None
        fault = fault_of_digits(word)
        if fault is None and len(word) % 2:
            return f'a byte has 2 digits, and this has {counted(len(word), "digit")}, an odd number'
        return fault


class Choice:
    """One of some words. `others` are words that people use in their place."""

    def __init__(self, name: str, words: List[str], others: Optional[Dict[str, str]] = None) -> None:
        self.name, self.words, self.others = name, words, others or {}
        self.wanted = ' or '.join(words) if len(words) < 3 else ', '.join(words[:-1]) + ' or ' + words[-1]

    def fault(self, word: str) -> Optional[str]:
        """Returns what is wrong with a word, or none."""
        if word in self.words:
            return None
        found = self.others.get(word.lower()) or near(word, self.words)
        hint = f"; did you mean '{found}'?" if found else ''
        return (f'{self.name} is {self.wanted}' if self.name.isupper() else f'{self.wanted} belongs here') + hint


class Literal:
    """One certain word."""

    def __init__(self, word: str) -> None:
        self.name = self.word = word
        self.wanted = f"the word '{word}'"

    def fault(self, word: str) -> Optional[str]:
        """Returns what is wrong with a word, or none."""
        return None if word == self.word else f"the word '{self.word}' belongs here"


class Seed:
    """A word of any letters and digits, from which keys and codes are made."""

    name = 'SEED'
    wanted = 'a word of letters and digits'

    def fault(self, word: str) -> Any:
        """Returns what is wrong with a word, or none."""
        return None if word.isalnum() else f'SEED is {self.wanted}'


class Rest:
    """All that is left of a line."""

    def __init__(self, name: str, wanted: str) -> None:
        self.name, self.wanted = name, wanted

    def fault(self, word: str) -> None:
        """Returns what is wrong with a word, or none."""
        return None


def crc_after(crc: int, byte: int) -> int:
    """Returns the remainder so far after one more byte, whose lowest bit comes first."""
    crc ^= byte
    for _ in range(8):
        crc = crc >> 1 ^ 0x8408 if crc & 1 else crc >> 1
    return crc


def crc_of(data: bytes) -> bytes:
    """Returns the CRC of an install code, as the two bytes after it."""
    return (functools.reduce(crc_after, data, 0xFFFF) ^ 0xFFFF).to_bytes(2, 'little')


def fault_of_code(word: str) -> Optional[str]:
    """Returns why the bytes of a word are no install code, or none."""
    data = b'' if word == '-' else bytes.fromhex(word)
    if len(data) + 2 in CODE_SIZES and len(data) not in CODE_SIZES:
        return (
            f'an install code ends with its CRC, and here it is missing: {word.upper()}{crc_of(data).hex().upper()}'
        )
    if len(data) not in CODE_SIZES:
        return (
            f'an install code has 6, 8, 12 or 16 bytes and a CRC of 2, and this has {counted(len(data), "byte")} in '
            'all'
        )
    wanted = crc_of(data[:-2])
    if data[-2:] != wanted:
        return (
            f'the CRC at the end is {data[-2:].hex().upper()}, and of these bytes it is {wanted.hex().upper()}: a '
            'digit is wrong'
        )
    return None
