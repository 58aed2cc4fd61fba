"""The lines of text captures: their forms with a sentence each, and a reader that finds all mistakes of a text."""
from typing import Any, Dict, List, Optional

from . import grammar
from .grammar import Form, Grammar, by_other, mistake, split_line
from .words import Bytes, Code, Digits, Eui, fault_of_code

MOST_KEYS, MOST_FRAMES = 256, 100000

WHAT = 'line of a capture'
KINDS = {
    'KEY': Digits('KEY', 32, 'a key'),
    'CODE': Code(),
    'SHORT': Digits('SHORT', 4, 'a short address'),
    'EUI': Eui(),
    'HEX': Bytes('HEX', 1, 127),
}

FORMS = [
    Form(WHAT, 'key KEY', 'a key that is known: a network key or a link key', KINDS),
    Form(
        WHAT,
        'code CODE',
        'an install code that is known, its CRC at the end; its link key is one that is known',
        KINDS,
    ),
    Form(WHAT, 'addr SHORT EUI', 'the node of this short address has this EUI', KINDS),
    Form(
        WHAT,
        'frame HEX',
        'a frame that was heard, from its NWK header on, without MAC header and check sequence',
        KINDS,
    ),
]

# What people write for the first word of a line.
MEANT = {
    'key': 'netkey nwkkey linkkey',
    'code': 'install installcode',
    'addr': 'address',
    'frame': 'packet inject send data',
}
OTHERS = by_other(MEANT)

GRAMMAR = Grammar(FORMS, OTHERS)


class Reader:
    """Finds the mistakes of a capture."""

    def __init__(self) -> None:
        self.keys = self.frames = 0
        self.addresses = {}

    def skim(self, number: int, text: str) -> None:
        """Takes a line that tc took: of a frame only that there is one."""
        if text.startswith('frame '):
            self.frames += 1
        else:
            self.fault(split_line(number, text))

    def fault(self, line: grammar.Line) -> Optional[grammar.Mistake]:
        """Takes a line, and returns its mistake, or none."""
        form, line, fault = GRAMMAR.read(line)
        return fault or getattr(self, f'take_{form.first}')(line, form.values(line))

    @staticmethod
    def fault_of_end(data: bytes) -> None:
        """Returns none: a capture may end anywhere."""

    def take_key(self, line: Any, values: dict) -> Any:
        """Counts a key, and returns the mistake of its line, or none."""
        return self.count_key(line)

    def take_code(self, line: grammar.Line, values: Dict[str, grammar.Word]) -> Optional[grammar.Mistake]:
        """Counts an install code, and returns the mistake of its line, or none."""
        word = values['CODE']
        fault = fault_of_code(word.text)
        return mistake(line, word.column, word.text, fault, 'bad-code') if fault else self.count_key(line)

    def count_key(self, line: grammar.Line) -> Any:
        """Counts a key or code, and returns the mistake of one too many."""
        self.keys += 1
        if self.keys > MOST_KEYS:
            return mistake(line, 1, line.text, f'a capture has at most {MOST_KEYS} keys and codes', 'too-many')
        return None

    def take_addr(self, line: grammar.Line, values: Dict[str, grammar.Word]) -> Optional[grammar.Mistake]:
        """Notes a short address, and returns the mistake of its line, or none."""
        word = values['SHORT']
        earlier = self.addresses.setdefault(word.text.upper(), line.number)
        if earlier != line.number:
            return mistake(
                line, word.column, word.text, 'this short address has an addr line already', 'address-taken', earlier
            )
        return None

    def take_frame(self, line: grammar.Line, values: Dict[str, grammar.Word]) -> Any:
        """Counts a frame, and returns the mistake of its line, or none."""
        self.frames += 1
        if self.frames > MOST_FRAMES:
            return mistake(line, 1, line.text, f'a capture has at most {MOST_FRAMES} frames', 'too-many')
        return None


def find_mistakes(
    data: bytes, link_key: Any = None, first: int = 1, most: Optional[int] = None
) -> List[grammar.Mistake]:
    """Returns the mistakes of a capture from line `first` on, at most one a line, and no more than `most`."""
    return grammar.find_mistakes(Reader(), data, first, most)
