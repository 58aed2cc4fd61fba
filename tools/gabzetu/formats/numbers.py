"""Reads numbers from foreign texts: decimal digits of ASCII, no more of them than any number here has."""
import re
from typing import Optional

MOST_DIGITS = 20
DECIMAL = re.compile('[0-9]+')
HEXADECIMAL = re.compile('[0-9A-Fa-f]+')


def read_number(text: str) -> Optional[int]:
    """Returns the number that a text of at most 20 decimal digits is, or none."""
    return int(text) if len(text) <= MOST_DIGITS and DECIMAL.fullmatch(text) else None


def read_hexadecimal(text: str) -> Optional[int]:
    """Returns the number that a text of at most 20 hexadecimal digits is, or none."""
    return int(text, 16) if len(text) <= MOST_DIGITS and HEXADECIMAL.fullmatch(text) else None
