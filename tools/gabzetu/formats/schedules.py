"""The lines of schedules: their forms with a sentence each, and a reader that finds all mistakes of a text.

The reader follows docs/FORMATS.md. It judges nothing: whether a text is a schedule is said by tc."""
import collections
import itertools
from typing import Any, Dict, List, Optional, Tuple

from . import grammar
from .grammar import Form, Grammar, by_other, mistake, number_of_end, split_line
from .words import Bytes, Choice, Code, Digits, Eui, Name, Number, GREATEST, fault_of_code, suggestion, taken

WELL_KNOWN = '5A6967426565416C6C69616E63653039'
MOST_NODES, MOST_EVENTS = 64, 100000
BLOCKS = {'OUT': 65536, 'IN': 1024}

KINDS = {
    'NAME': Name(),
    'PARENT': Name('PARENT'),
    'PARTNER': Name('PARTNER'),
    'ROLE': Choice(
        'ROLE',
        ['centre', 'router', 'device'],
        {
            'center': 'centre',
            'coordinator': 'centre',
            'hub': 'centre',
            'zc': 'centre',
            'zr': 'router',
            'zed': 'device',
            'enddevice': 'device',
            'end-device': 'device',
            'node': 'device',
            'sensor': 'device',
        },
    ),
    'EUI': Eui(),
    'SHORT': Digits('SHORT', 4, 'a short address'),
    'KEY': Digits('KEY', 32, 'a key'),
    'OUT': Number('OUT', 0, GREATEST),
    'IN': Number('IN', 0, GREATEST),
    'SEQ': Number('SEQ', 0, 255),
    'N': Number('N', 0, GREATEST),
    'COUNTER': Number('COUNTER', 0, GREATEST),
    'FRAME': Number('FRAME', 1, GREATEST),
    'STOP': Number('K', 0, 5),
    'CALL': Number('K', 1, 6),
    'LAYER': Choice('LAYER', ['nwk', 'aps']),
    'CODE': Code(),
    'DATA': Bytes('HEX', 0, 64),
    'TORN': Bytes('HEX', 0, 32),
    'AIR': Bytes('HEX', 1, 127),
    'CONTENT': Bytes('HEX', 1, 64),
    'LABEL': Choice('LABEL', ['data', 'transport', 'load']),
    'WAY': Choice('join|rejoin', ['join', 'rejoin']),
}

ANY, JOINER, PARENT = 'any', 'joiner', 'parent'


def declaration(text: str, about: str, **roles: str) -> Form:
    """Returns the form of a declaration."""
    return Form('declaration', text, about, KINDS, roles)


def event(text: str, about: str, **roles: str) -> Form:
    """Returns the form of an event."""
    return Form('event', text, about, KINDS, roles)


DECLARATIONS = [
    declaration(
        'node NAME ROLE EUI SHORT OUT IN',
        'declares a node: ROLE is centre, router or device; SHORT is 0000 for the centre; '
        'OUT and IN are the blocks in which outgoing counters and incoming floors are stored',
    ),
    declaration('code NAME CODE', 'NAME has this install code on its label, its CRC at the end', NAME=JOINER),
    declaration('netkey NAME KEY SEQ', 'NAME holds this network key from the start', NAME=ANY),
    declaration(
        'counter NAME LAYER N',
        'NAME has used the outgoing counters below N of this layer (nwk or aps) before the start',
        NAME=ANY,
    ),
    declaration('draw KEY', 'the next key that the centre gives out when it needs one'),
]

EVENTS = [
    event(
        'say NAME SHORT DATA', 'NAME sends HEX as application data to a short address; FFFF is everybody', NAME=ANY
    ),
    event('deliver FRAME NAME', 'frame number FRAME, counted from 1 as they go on the air, reaches NAME', NAME=ANY),
    event(
        'timer NAME',
        "NAME's timer runs out: a joining node asks for its key or verifies it, the centre of a rollover tells "
        'the next device',
        NAME=ANY,
    ),
    event('knock NAME', 'NAME begins to join with its install code', NAME=JOINER),
    event('rejoin NAME', 'NAME, which was joined, begins to rejoin', NAME=JOINER),
    event(
        'child PARENT NAME WAY',
        "NAME comes to PARENT, which reports it to the centre, or as the centre sends it the network key",
        NAME=JOINER,
        PARENT=PARENT,
    ),
    event('provision NAME CODE', 'the centre admits NAME by this install code', NAME=JOINER),
    event(
        'again NAME',
        'the centre counts NAME as not told of the new network key, and will tell it once more',
        NAME=JOINER,
    ),
    event('roll', 'the centre draws a new network key, and begins to send it out'),
    event('switch', 'the centre switches all to the new network key'),
    event(
        'remove NAME via PARENT',
        'the centre removes NAME, and tells PARENT, or NAME itself where PARENT is the centre',
        NAME=JOINER,
        PARENT=PARENT,
    ),
    event('ask NAME PARTNER', 'NAME asks the centre for a key with PARTNER', NAME=JOINER, PARTNER=JOINER),
    event('share NAME PARTNER', 'the centre sends NAME its key with PARTNER', NAME=JOINER, PARTNER=JOINER),
    event('tell NAME PARTNER DATA', 'NAME sends PARTNER data under the key of the two', NAME=JOINER, PARTNER=JOINER),
    event('reset NAME', 'NAME loses its power', NAME=ANY),
    event('boot NAME', 'NAME, which has no power, starts again from its disk', NAME=ANY),
    event('dump NAME', "writes the record on NAME's disk", NAME=ANY),
    event(
        'stop NAME STOP TORN',
        "NAME's disk stops after K more device calls; what was being written then reads as HEX",
        NAME=ANY,
    ),
    event('fail NAME CALL', "call K of NAME's disk fails", NAME=ANY),
    event('inject AIR', 'a stranger sends these bytes'),
    event(
        'forge SHORT SHORT EUI net KEY SEQ COUNTER CONTENT',
        'a stranger sends a frame sealed at NWK: to, from, source',
    ),
    event(
        'forge SHORT SHORT EUI net KEY SEQ COUNTER aps LABEL KEY COUNTER CONTENT',
        'the same, with a command sealed at APS inside',
    ),
    event('forge SHORT SHORT EUI open aps LABEL KEY COUNTER CONTENT', 'the same, unsecured at NWK'),
]

# What people write for the first word of an event or declaration, by the word that it is.
MEANT = {
    'say': 'send transmit data',
    'deliver': 'receive recv hear',
    'child': 'join',
    'boot': 'power reboot start',
    'reset': 'off crash',
    'remove': 'leave kick delete',
    'timer': 'tick wait',
    'roll': 'rollover update rotate',
    'node': 'router device centre center coordinator init peer',
    'netkey': 'key nwkkey',
    'code': 'installcode',
    'provision': 'admit permit',
    'inject': 'frame',
}
OTHERS = by_other(MEANT)

GRAMMAR = Grammar(DECLARATIONS + EVENTS, OTHERS)
DECLARED = {it.first for it in DECLARATIONS}

Node = collections.namedtuple('Node', 'line role eui short')
End = collections.namedtuple('End', 'number')


class Reader:
    """Finds the mistakes of a schedule. `link_key` returns the link key of an install code, or none."""

    def __init__(self, link_key: Any) -> None:
        self.link_key = link_key
        self.nodes, self.codes, self.netkeys, self.draws, self.counters = {}, {}, [], [], {}
        self.events = 0
        self.first_event: Optional[int] = None

    def skim(self, number: int, text: str) -> None:
        """Takes a line that tc took: a declaration whole, and of an event that there is one."""
        if text.partition(' ')[0] in DECLARED:
            self.fault(split_line(number, text))
        else:
            self.first_event = self.first_event or number
            self.events += 1

    def fault(self, line: grammar.Line) -> Optional[grammar.Mistake]:
        """Takes a line, and returns its mistake, or none."""
        found, line, fault = GRAMMAR.read(line)
        return self.with_short(fault) if fault else self.fault_of_meaning(found, line)

    def fault_of_end(self, data: bytes) -> Optional[grammar.Mistake]:
        """Returns what a text without other mistakes lacks, or none."""
        return None if any(it.role == 'centre' for it in self.nodes.values()) else self.no_centre(data)

    def with_short(self, fault: grammar.Mistake) -> grammar.Mistake:
        """Returns a mistake with the short address of the node whose name is in its place."""
        node = self.nodes.get(fault.text)
        if node is None or not fault.message.startswith('SHORT '):
            return fault
        return fault._replace(message=f"{fault.message}; the short address of '{fault.text}' is {node.short}")

    @staticmethod
    def no_centre(data: bytes) -> grammar.Mistake:
        """Returns the mistake of a schedule without a centre."""
        end = mistake(End(number_of_end(data)), 1, '', '')
        return end._replace(
            message="no line declares a centre, for example 'node c centre 00124B0000000001 0000 8 4'",
            text='end',
            cause='no-centre',
        )

    def fault_of_meaning(self, found: Form, line: grammar.Line) -> Optional[grammar.Mistake]:
        """Takes a line that is right by its form, and returns what is wrong with it here, or none."""
        values = found.values(line)
        if found.first not in DECLARED:
            self.first_event = self.first_event or line.number
            return self.fault_of_event(found, line, values)
        if self.first_event is not None:
            message = (
                "a declaration after an event: all declarations come first, and the first event is line "
                f"{self.first_event}"
            )
            return mistake(line, 1, line.text, message)
        return getattr(self, f'take_{found.first}')(found, line, values)

    # ---- declarations

    def take_node(
        self, found: Form, line: grammar.Line, values: Dict[str, grammar.Word]
    ) -> Optional[grammar.Mistake]:
        """Notes a node, and returns the mistake of its line, or none."""
        name, role, eui, short = (values[it].text for it in ('NAME', 'ROLE', 'EUI', 'SHORT'))
        eui, short = eui.upper(), short.upper()
        fault = (
            self.fault_of_short(line, role, values['SHORT'])
            or self.fault_of_taken(line, values)
            or self.fault_of_blocks(line, values)
        )
        if fault is None and len(self.nodes) >= MOST_NODES:
            fault = mistake(line, 1, line.text, f'a schedule has at most {MOST_NODES} nodes', 'too-many')
        self.nodes.setdefault(name, Node(line.number, role, eui, short))
        return fault

    @staticmethod
    def fault_of_short(line: grammar.Line, role: str, word: grammar.Word) -> Optional[grammar.Mistake]:
        """Returns the mistake of a short address that this role has not, or none."""
        if role == 'centre' and word.text != '0000':
            return mistake(line, word.column, word.text, 'the short address of the centre is 0000')
        if role != 'centre' and not 1 <= int(word.text, 16) <= 0xFFF7:
            return mistake(line, word.column, word.text, f'the short address of a {role} is 0001 to FFF7')
        return None

    def fault_of_taken(self, line: grammar.Line, values: Dict[str, grammar.Word]) -> Optional[grammar.Mistake]:
        """Returns the mistake of a name, address or centre that is there already, or none."""
        for name, old in self.nodes.items():
            word, what = taken(values, name, old.eui, old.short)
            if old.role == 'centre' and values['ROLE'].text == 'centre' and name != values['NAME'].text:
                column = values['ROLE'].column
                return mistake(line, column, 'centre', 'there is a centre already', 'duplicate-node', old.line)
            if word:
                return mistake(line, word.column, word.text, f'this {what} is taken', 'duplicate-node', old.line)
        return None

    @staticmethod
    def fault_of_blocks(line: grammar.Line, values: Dict[str, grammar.Word]) -> Optional[grammar.Mistake]:
        """Returns the mistake of a block out of its range, or none."""
        for key, most in BLOCKS.items():
            word = values[key]
            if not 1 <= int(word.text) <= most:
                return mistake(line, word.column, word.text, f'{key} is a block of 1 to {most} counters', 'block')
        return None

    def take_code(
        self, found: Form, line: grammar.Line, values: Dict[str, grammar.Word]
    ) -> Optional[grammar.Mistake]:
        """Notes an install code, and returns the mistake of its line, or none."""
        name, word = values['NAME'].text, values['CODE']
        if name in self.codes:
            return mistake(line, 1, line.text, f"'{name}' has a code already", 'duplicate-node', self.codes[name][0])
        fault = self.fault_of_code(line, name, word) or self.fault_of_nodes(found, line, values)
        if fault is None or fault.cause != 'bad-code':
            self.codes[name] = (line.number, word.text.upper())
        return fault

    def fault_of_code(self, line: grammar.Line, name: str, word: grammar.Word) -> Optional[grammar.Mistake]:
        """Returns why a code is none, or whose key its link key is, or none."""
        fault = fault_of_code(word.text)
        if fault:
            return mistake(line, word.column, word.text, fault, 'bad-code')
        code = word.text.upper()
        for other, (number, text) in self.codes.items():
            if text == code and other != name:
                return mistake(
                    line, word.column, word.text, f"this code is that of '{other}'", 'duplicate-code', number
                )
        return self.fault_of_link(line, word, self.link_key(code))

    def fault_of_link(self, line: grammar.Line, word: grammar.Word, key: str) -> Optional[grammar.Mistake]:
        """Returns whose key the link key of a code is, where it may not be, or none."""
        if key == WELL_KNOWN:
            return mistake(line, word.column, word.text, 'its link key is the well-known one', 'duplicate-code')
        for number, text, what in self.netkeys + self.draws:
            if text == key:
                why = f'the link key of this code is {key}, that of a {what}'
                return mistake(line, word.column, word.text, why, 'duplicate-code', number)
        return None

    def take_netkey(
        self, found: Form, line: grammar.Line, values: Dict[str, grammar.Word]
    ) -> Optional[grammar.Mistake]:
        """Notes a network key, and returns the mistake of its line, or none."""
        name, word = values['NAME'].text, values['KEY']
        earlier = next((number for number, _, what in self.netkeys if what == f"netkey of '{name}'"), None)
        if earlier:
            return mistake(line, 1, line.text, f"'{name}' has a network key already", 'duplicate-node', earlier)
        fault = self.fault_of_key(line, word, self.draws) or self.fault_of_nodes(found, line, values)
        self.netkeys.append((line.number, word.text.upper(), f"netkey of '{name}'"))
        return fault

    def take_draw(
        self, found: Form, line: grammar.Line, values: Dict[str, grammar.Word]
    ) -> Optional[grammar.Mistake]:
        """Notes a key of the supply, and returns the mistake of its line, or none."""
        fault = self.fault_of_key(line, values['KEY'], self.draws + self.netkeys)
        self.draws.append((line.number, values['KEY'].text.upper(), 'draw'))
        return fault

    def fault_of_key(
        self, line: grammar.Line, word: grammar.Word, earlier: List[Tuple[int, str, str]]
    ) -> Optional[grammar.Mistake]:
        """Returns whose key a network key or draw is, where it may not be that key, or none."""
        key = word.text.upper()
        if key == WELL_KNOWN:
            why = 'this is the well-known key, which everybody has'
            return mistake(line, word.column, word.text, why, 'draw-repeated')
        codes = (
            (number, self.link_key(code), f"this is the link key of the code of '{name}'")
            for name, (number, code) in self.codes.items()
        )
        others = ((number, text, f'this is the key of a {what}') for number, text, what in earlier)
        for number, text, why in itertools.chain(others, codes):
            if text == key:
                return mistake(line, word.column, word.text, why, 'draw-repeated', number)
        return None

    def take_counter(
        self, found: Form, line: grammar.Line, values: Dict[str, grammar.Word]
    ) -> Optional[grammar.Mistake]:
        """Notes a declared counter, and returns the mistake of its line, or none."""
        name, layer = values['NAME'].text, values['LAYER'].text
        earlier = self.counters.setdefault((name, layer), line.number)
        if earlier != line.number:
            return mistake(
                line, 1, line.text, f"'{name}' has a counter of {layer} already", 'duplicate-node', earlier
            )
        return self.fault_of_nodes(found, line, values)

    # ---- events

    def fault_of_event(
        self, found: Form, line: grammar.Line, values: Dict[str, grammar.Word]
    ) -> Optional[grammar.Mistake]:
        """Counts an event, and returns the mistake of its line, or none."""
        fault = None
        if found.first == 'provision':
            fault = self.fault_of_code(line, values['NAME'].text, values['CODE'])
        fault = fault or self.fault_of_nodes(found, line, values)
        self.events += 1
        if fault is None and self.events > MOST_EVENTS:
            fault = mistake(line, 1, line.text, f'a schedule has at most {MOST_EVENTS} events', 'too-many')
        return fault

    def fault_of_nodes(
        self, found: Form, line: grammar.Line, values: Dict[str, grammar.Word]
    ) -> Optional[grammar.Mistake]:
        """Returns the first node of a line that isn't declared before it or has another role than the line wants, or
        none."""
        for key, role in found.roles.items():
            fault = self.fault_of_node(line, values[key], role, key)
            if fault:
                return fault
        names = [values[it].text for it in found.roles]
        if len(names) == 2 and names[0] == names[1]:
            word = values['PARENT' if 'PARENT' in found.roles else 'PARTNER']
            message = f"'{found.text}' wants two nodes, and here they are the same"
            return mistake(line, word.column, word.text, message, 'unknown-node')
        return None

    def fault_of_node(
        self, line: grammar.Line, word: grammar.Word, role: str, place: str
    ) -> Optional[grammar.Mistake]:
        """Returns the mistake of a name at a place for this role, or none."""
        node = self.nodes.get(word.text)
        if node is None:
            message = f'no node of this name is declared before this line{suggestion(word.text, self.nodes)}'
            return mistake(line, word.column, word.text, message, 'unknown-node')
        if role == JOINER and node.role == 'centre':
            message = f'this is the centre, and {place} is a router or device here'
        elif role == PARENT and node.role == 'device':
            message = 'this is a device, and PARENT is the centre or a router'
        else:
            return None
        return mistake(line, word.column, word.text, message, 'unknown-node', node.line)


def find_mistakes(data: bytes, link_key: Any, first: int = 1, most: Optional[int] = None) -> List[grammar.Mistake]:
    """Returns the mistakes of a schedule from line `first` on, at most one a line, and no more than `most`."""
    return grammar.find_mistakes(Reader(link_key), data, first, most)
