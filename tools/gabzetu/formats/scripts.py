"""The lines of scripts of `admin`: their forms with a sentence each, and a reader that finds all mistakes of a
text."""
import collections
import json
from typing import Any, Dict, List, Optional

from . import grammar
from .grammar import Form, Grammar, by_other, mistake, number_of_end, split_line
from .words import GREATEST, Choice, Code, Digits, Eui, Name, Number, Rest, fault_of_code, suggestion, taken

MOST_PEERS, MOST_COMMANDS = 63, 10000

KINDS = {
    'NAME': Name(),
    'PARENT': Name('PARENT'),
    'ROLE': Choice('ROLE', ['router', 'device'], {'zr': 'router', 'zed': 'device'}),
    'EUI': Eui(),
    'SHORT': Digits('SHORT', 4, 'a short address'),
    'OUT': Number('OUT', 0, GREATEST),
    'IN': Number('IN', 0, GREATEST),
    'KEY': Digits('KEY', 32, 'a key'),
    'CODE': Code(),
    'SKIP': Number('SKIP', 0, GREATEST),
    'BACKUP': Rest('BACKUP', 'the line that `backup` wrote, a JSON object'),
}

FORMS = [
    Form(
        'command',
        'centre NAME EUI OUT IN',
        'the first line: the centre, its address, and the blocks in which counters are stored',
        KINDS,
    ),
    Form('command', 'peer NAME ROLE EUI SHORT', 'a router or device; all peers come before the first command', KINDS),
    Form('command', 'init KEY', 'makes the store of a centre with this network key', KINDS),
    Form('command', 'provision NAME CODE', 'admits a device by its install code', KINDS),
    Form(
        'command',
        'remove NAME via PARENT',
        'removes a device, and tells it (where PARENT is the centre) or its parent',
        KINDS,
    ),
    Form('command', 'list', 'shows the network keys and the link keys', KINDS),
    Form('command', 'backup', 'shows the backup, one line of JSON', KINDS),
    Form(
        'command',
        'restore SKIP BACKUP',
        'makes the store of a centre that goes on from a backup, SKIP counters later',
        KINDS,
    ),
]

# What people write for the first word of a command.
MEANT = {
    'centre': 'center coordinator',
    'peer': 'node device router',
    'init': 'netkey key',
    'provision': 'admit code',
    'remove': 'delete',
    'list': 'show ls',
    'backup': 'dump save export',
    'restore': 'import load',
}
OTHERS = by_other(MEANT)

GRAMMAR = Grammar(FORMS, OTHERS)
BLOCKS = {'OUT': 65536, 'IN': 1024}

End = collections.namedtuple('End', 'number')
Station = collections.namedtuple('Station', 'line role eui short')


class Reader:
    """Finds the mistakes of a script."""

    def __init__(self) -> None:
        self.stations = {}
        self.centre: Optional[int] = None
        self.first_command: Optional[int] = None
        self.commands = 0

    def skim(self, number: int, text: str) -> None:
        """Takes a line that tc took: of a command only that there is one."""
        if text.startswith(('centre ', 'peer ')):
            self.fault(split_line(number, text))
        else:
            self.first_command = self.first_command or number
            self.commands += 1

    def fault(self, line: grammar.Line) -> Optional[grammar.Mistake]:
        """Takes a line, and returns its mistake, or none."""
        form, line, fault = GRAMMAR.read(line)
        return fault or self.fault_of_meaning(form, line)

    def fault_of_end(self, data: bytes) -> Optional[grammar.Mistake]:
        """Returns what a text without other mistakes lacks, or none."""
        if self.centre is not None:
            return None
        what = "no line is the centre, for example 'centre c 00124B0000000001 8 4'"
        return mistake(End(number_of_end(data)), 1, 'end', what, 'no-centre')

    def fault_of_meaning(self, form: Form, line: grammar.Line) -> Optional[grammar.Mistake]:
        """Returns the mistake of a line of a known form, or none."""
        values = form.values(line)
        if form.first == 'centre':
            return self.take_centre(line, values)
        if self.centre is None:
            return mistake(line, 1, line.text, "the centre comes first: 'centre NAME EUI OUT IN'")
        if form.first == 'peer':
            return self.take_peer(line, values)
        self.first_command = self.first_command or line.number
        fault = getattr(self, f'fault_of_{form.first}', lambda *_: None)(line, values)
        self.commands += 1
        if fault is None and self.commands > MOST_COMMANDS:
            fault = mistake(line, 1, line.text, f'a script has at most {MOST_COMMANDS} commands', 'too-many')
        return fault

    def take_centre(self, line: grammar.Line, values: Dict[str, grammar.Word]) -> Optional[grammar.Mistake]:
        """Notes the centre, and returns the mistake of its line, or none."""
        if self.centre is not None:
            return mistake(line, 1, line.text, 'there is a centre already', 'syntax', self.centre)
        self.centre = line.number
        self.stations[values['NAME'].text] = Station(line.number, 'centre', values['EUI'].text.upper(), '0000')
        for key, most in BLOCKS.items():
            if not 1 <= int(values[key].text) <= most:
                return mistake(
                    line, values[key].column, values[key].text, f'{key} is a block of 1 to {most} counters', 'block'
                )
        return None

    def take_peer(self, line: grammar.Line, values: Dict[str, grammar.Word]) -> Optional[grammar.Mistake]:
        """Notes a router or device, and returns the mistake of its line, or none."""
        if self.first_command is not None:
            message = (
                f'a peer after a command: all peers come first, and the first command is line {self.first_command}'
            )
            return mistake(line, 1, line.text, message)
        word = values['SHORT']
        if not 1 <= int(word.text, 16) <= 0xFFF7:
            return mistake(line, word.column, word.text, 'the short address of a peer is 0001 to FFF7')
        fault = self.fault_of_taken(line, values)
        if fault is None and len(self.stations) > MOST_PEERS:
            fault = mistake(line, 1, line.text, f'a script has at most {MOST_PEERS} peers', 'too-many')
        station = Station(line.number, values['ROLE'].text, values['EUI'].text.upper(), word.text.upper())
        self.stations.setdefault(values['NAME'].text, station)
        return fault

    def fault_of_taken(self, line: grammar.Line, values: Dict[str, grammar.Word]) -> Optional[grammar.Mistake]:
        """Returns the mistake of a name or address that is taken, or none."""
        for name, old in self.stations.items():
            word, what = taken(values, name, old.eui, old.short)
            if word:
                return mistake(line, word.column, word.text, f'this {what} is taken', 'duplicate-node', old.line)
        return None

    def fault_of_station(
        self, line: grammar.Line, word: grammar.Word, wanted: List[str]
    ) -> Optional[grammar.Mistake]:
        """Returns the mistake of a name of no station with one of these roles, or none."""
        station = self.stations.get(word.text)
        if station is None:
            message = f'no node of this name comes before this line{suggestion(word.text, self.stations)}'
            return mistake(line, word.column, word.text, message, 'unknown-node')
        if station.role not in wanted:
            message = f'this is a {station.role}, and here it is a {" or ".join(wanted)}'
            return mistake(line, word.column, word.text, message, 'unknown-node', station.line)
        return None

    def fault_of_provision(self, line: grammar.Line, values: Dict[str, grammar.Word]) -> Optional[grammar.Mistake]:
        """Returns the mistake of a `provision` line, or none."""
        word = values['CODE']
        fault = self.fault_of_station(line, values['NAME'], ['router', 'device'])
        if fault is None and fault_of_code(word.text):
            fault = mistake(line, word.column, word.text, fault_of_code(word.text), 'bad-code')
        return fault

    def fault_of_remove(self, line: grammar.Line, values: Dict[str, grammar.Word]) -> Optional[grammar.Mistake]:
        """Returns the mistake of a `remove` line, or none."""
        name, parent = values['NAME'], values['PARENT']
        if name.text == parent.text:
            return mistake(line, parent.column, parent.text, 'a node is not its own parent', 'unknown-node')
        return self.fault_of_station(line, name, ['router', 'device']) or self.fault_of_station(
            line, parent, ['centre', 'router']
        )

    @staticmethod
    def fault_of_restore(line: grammar.Line, values: Dict[str, grammar.Word]) -> Optional[grammar.Mistake]:
        """Returns the mistake of a backup that is no JSON, or none."""
        word = values['BACKUP']
        try:
            json.loads(word.text)
        except (ValueError, RecursionError) as error:
            place = getattr(error, 'pos', 0)
            why = getattr(error, 'msg', 'nested too deeply')
            return mistake(line, word.column + place, word.text[place:], f'no JSON: {why.lower()}', 'backup')
        return None


def find_mistakes(
    data: bytes, link_key: Any = None, first: int = 1, most: Optional[int] = None
) -> List[grammar.Mistake]:
    """Returns the mistakes of a script from line `first` on, at most one a line, and no more than `most`."""
    return grammar.find_mistakes(Reader(), data, first, most)
