"""Takes frames apart, field by field with offsets, by the layouts of docs/FORMATS.md ("Frames").

A frame becomes sections. The first is the frame as it is on the air. A nonce, and the content of each layer that a
line shows opened, are sections of their own, with their own offsets."""
import collections
from typing import Any, Callable, Dict, List, Optional, Tuple, Union

from . import frames

# offset: in its section; shape: number, short or address (least significant byte first), bytes, key, sealed or code
# (of the seal, 4 bytes); note: what the value means, or nothing
Field = collections.namedtuple('Field', 'offset size name shape note')

# kind: air, nonce or content; title: in words; data: its bytes; fields: those that it has, in order
Section = collections.namedtuple('Section', 'kind title data fields')

BROADCASTS = {0xFFFF: 'all', 0xFFFD: 'all that listen', 0xFFFC: 'all routers'}
NWK_TYPES, APS_TYPES = {0: 'data', 1: 'command'}, {0: 'data', 1: 'command', 2: 'acknowledgement'}
DELIVERIES = {0: 'unicast', 1: 'delivery 1', 2: 'broadcast', 3: 'group'}
KEY_IDENTIFIERS = {0: 'data key', 1: 'network key', 2: 'transport key', 3: 'load key'}
NWK_BITS = {
    8: 'multicast',
    9: 'secured',
    10: 'source route',
    11: 'destination IEEE',
    12: 'source IEEE',
    13: 'end device',
}
APS_BITS = {4: 'ack format', 5: 'secured', 6: 'ack request', 7: 'extended header'}
COMMANDS = {
    frames.TRANSPORT: 'Transport-Key',
    frames.UPDATE: 'Update-Device',
    frames.REMOVE: 'Remove-Device',
    frames.REQUEST: 'Request-Key',
    frames.SWITCH: 'Switch-Key',
    frames.TUNNEL: 'Tunnel',
    frames.VERIFY: 'Verify-Key',
    frames.CONFIRM: 'Confirm-Key',
}
JOINS = {0: 'secured rejoin', 1: 'join', 2: 'leave', 3: 'unsecured rejoin'}


def explain_status(status: int) -> str:
    """Returns the words on the status of an Update-Device."""
    return JOINS.get(status, '')


# The fields of commands after their identifier: size (none for the rest), name and shape.
KEY_FIELDS: Dict[int, List[tuple]] = {
    1: [(16, 'key', 'key'), (1, 'sequence', 'number'), (8, 'destination', 'address'), (8, 'source', 'address')],
    3: [(16, 'key', 'key'), (8, 'partner', 'address'), (1, 'initiator', 'number')],
    4: [(16, 'key', 'key'), (8, 'destination', 'address'), (8, 'source', 'address')],
}
FIELDS: Dict[int, List[tuple]] = {
    frames.UPDATE: [(8, 'device', 'address'), (2, 'short', 'short'), (1, 'status', 'number', explain_status)],
    frames.REMOVE: [(8, 'target', 'address')],
    frames.SWITCH: [(1, 'sequence', 'number')],
    frames.VERIFY: [(1, 'key type', 'number'), (8, 'source', 'address'), (16, 'hash', 'bytes')],
    frames.CONFIRM: [(1, 'status', 'number'), (1, 'key type', 'number'), (8, 'destination', 'address')],
}


class Cursor:
    """Takes the fields of one section, from its first byte on."""

    def __init__(self, kind: str, title: str, data: bytes) -> None:
        self.kind, self.title, self.data, self.at, self.fields = kind, title, data, 0, []

    def take(
        self, size: int, name: str, shape: str, note: Optional[Union[Callable[..., Any], str]] = None
    ) -> int:
        """Takes a field and returns its value as a number. The note is a function of the value, or a text."""
        value = int.from_bytes(self.data[self.at : self.at + size], 'little')
        if len(self.data) < self.at + size:
            self.rest('cut')
            raise frames.Malformed(f'{name} cut')
        text = note(value) if callable(note) else note or ''
        self.fields.append(Field(self.at, size, name, shape, text))
        self.at += size
        return value

    def rest(self, name: str, shape: str = 'bytes') -> None:
        """Takes all bytes that are left, if any."""
        if self.at < len(self.data):
            self.fields.append(Field(self.at, len(self.data) - self.at, name, shape, ''))
        self.at = len(self.data)

    def section(self) -> Section:
        """Returns the section that was read."""
        return Section(self.kind, self.title, self.data, tuple(self.fields))


def name_bits(value: int, bits: Dict[int, str]) -> List[str]:
    """Returns the names of the bits that are set."""
    return [name for bit, name in bits.items() if value & 1 << bit]


def explain_nwk(control: int) -> str:
    """Returns the words on a NWK frame control."""
    kind = NWK_TYPES.get(control & 3, f'type {control & 3}')
    return ', '.join([kind, f'version {control >> 2 & 15}', *name_bits(control, NWK_BITS)])


def explain_aps(control: int) -> str:
    """Returns the words on an APS frame control."""
    kind = APS_TYPES.get(control & 3, 'type 3')
    return ', '.join([kind, DELIVERIES[control >> 2 & 3], *name_bits(control, APS_BITS)])


def explain_auxiliary(control: int) -> str:
    """Returns the words on an auxiliary security control."""
    texts = [
        f'level {control & 7} on the air' + (', really 5' if control & 7 != 5 else ''),
        KEY_IDENTIFIERS[control >> 3 & 3],
    ]
    return ', '.join(texts + (['source given'] if control & 0x20 else []))


def take_nwk(cursor: Cursor) -> Tuple[bool, int]:
    """Takes a NWK header, and says whether the frame is secured and what type it has."""
    control = cursor.take(2, 'NWK control', 'number', explain_nwk)
    cursor.take(2, 'destination', 'short', lambda short: BROADCASTS.get(short, ''))
    cursor.take(2, 'source', 'short')
    cursor.take(1, 'radius', 'number')
    cursor.take(1, 'NWK sequence', 'number')
    for bit, name in ((11, 'destination IEEE'), (12, 'source IEEE')):
        if control & 1 << bit:
            cursor.take(8, name, 'address')
    if control & 1 << 8:
        cursor.take(1, 'multicast control', 'bytes')
    if control & 1 << 10:
        count = cursor.take(1, 'relay count', 'number')
        cursor.take(1, 'relay index', 'number')
        cursor.take(2 * count, 'relays', 'bytes')
    return bool(control & 1 << 9), control & 3


def take_aps(cursor: Cursor) -> Tuple[bool, int]:
    """Takes an APS header, and says whether the frame is secured and what type it has."""
    control = cursor.take(1, 'APS control', 'number', explain_aps)
    kind = control & 3
    if kind != frames.COMMAND and not (kind == frames.ACK and control & 0x10):
        cursor.take(*((2, 'group', 'short') if control >> 2 & 3 == 3 else (1, 'destination endpoint', 'number')))
        cursor.take(2, 'cluster', 'short')
        cursor.take(2, 'profile', 'short')
        cursor.take(1, 'source endpoint', 'number')
    cursor.take(1, 'APS counter', 'number')
    if control & 0x80:
        extended = cursor.take(1, 'extended control', 'number')
        if extended & 3:
            cursor.take(1, 'block number', 'number')
        if extended & 3 and kind == frames.ACK:
            cursor.take(1, 'ack bits', 'bytes')
    return bool(control & 0x20), kind


def take_seal(cursor: Cursor) -> tuple:
    """Takes an auxiliary header, the sealed bytes and their code, and returns control, counter and source (none if it
    isn't there)."""
    control = cursor.take(1, 'security control', 'number', explain_auxiliary)
    counter = cursor.take(4, 'frame counter', 'number')
    source = cursor.take(8, 'security source', 'address') if control & 0x20 else None
    if control >> 3 & 3 == 1:
        cursor.take(1, 'key sequence', 'number')
    if len(cursor.data) - cursor.at > 4:
        cursor.take(len(cursor.data) - cursor.at - 4, 'sealed', 'sealed')
    cursor.take(4, 'code of the seal', 'code')
    return control, counter, source


def nonce_of(layer: str, control: int, counter: int, source: int) -> Section:
    """Returns the section of the nonce of a sealed layer."""
    data = source.to_bytes(8, 'little') + counter.to_bytes(4, 'little') + bytes([control & 0xF8 | 5])
    cursor = Cursor('nonce', f'Nonce of the {layer} layer', data)
    cursor.take(8, 'source', 'address')
    cursor.take(4, 'frame counter', 'number')
    cursor.take(1, 'security control', 'number', 'with its real level')
    return cursor.section()


def take_command(cursor: Cursor) -> bool:
    """Takes an APS command, and says whether an APS frame for another node follows, as in a Tunnel."""
    kind = cursor.take(1, 'command', 'number', lambda value: COMMANDS.get(value, 'unknown'))
    parts = FIELDS.get(kind, [])
    if kind == frames.TRANSPORT:
        parts = KEY_FIELDS.get(
            cursor.take(1, 'key type', 'number', lambda value: frames.KEY_TYPES.get(value, 'unknown')), []
        )
    elif kind == frames.REQUEST:
        parts = [(8, 'partner', 'address')] if cursor.take(1, 'key type', 'number') == 2 else []
    elif kind == frames.TUNNEL:
        cursor.take(8, 'destination', 'address')
        return True
    for part in parts:
        cursor.take(*part)
    cursor.rest('more bytes')
    return False


class Anatomy:
    """Takes one frame apart. The reader shows the contents of its sealed layers."""

    def __init__(self, reader: Any, event: int, data: bytes) -> None:
        self.reader, self.event, self.sections = reader, event, []
        self.cursor = Cursor('air', 'Frame, as it is on the air', data)

    def close(self) -> None:
        """Ends the section that is being taken."""
        self.sections.append(self.cursor.section())

    def open(self, layer: str, part: frames.Layer) -> bool:
        """Takes the seal of a layer, and goes on with its content. Returns whether its content is known."""
        control, counter, source = take_seal(self.cursor)
        self.close()
        term = self.reader.term(self.event, part)
        source = int(term.source, 16) if source is None and term is not None else source
        if source is not None:
            self.sections.append(nonce_of(layer, control, counter, source))
        if term is not None:
            title = f'Content of the {layer} layer' + (
                f', sealed under {frames.short_key(term.base)}' if term.base else ''
            )
            self.cursor = Cursor('content', title, bytes.fromhex(term.content.replace('-', '')))
        return term is not None

    def take_nwk(self) -> None:
        """Takes a NWK frame."""
        is_secured, kind = take_nwk(self.cursor)
        if is_secured and not self.open('NWK', frames.read_nwk(self.cursor.data)):
            return
        if kind == frames.COMMAND:
            self.cursor.take(1, 'NWK command', 'number', lambda value: 'Leave' if value == frames.LEAVE else '')
            self.cursor.rest('options')
            self.close()
        else:
            self.take_aps('APS')

    def take_aps(self, layer: str) -> None:
        """Takes an APS frame, which ends the section or is followed by its content."""
        start = self.cursor.at
        is_secured, kind = take_aps(self.cursor)
        if is_secured and not self.open(layer, frames.read_aps(self.cursor.data[start:])):
            return
        if kind == frames.COMMAND:
            if take_command(self.cursor):
                self.take_aps('inner APS')
                return
        else:
            self.cursor.rest('data')
        self.close()

    def take_command(self) -> None:
        """Takes an APS command without its header."""
        if take_command(self.cursor):
            self.take_aps('inner APS')
        else:
            self.close()

    def take_all(self, take: Callable[..., Any]) -> List[Section]:
        """Returns the sections, beginning with `take`.

        Bytes that are no whole frame end as a field `cut` or `more bytes`."""
        try:
            take()
        except frames.Malformed:
            self.cursor.rest('more bytes')
            self.close()
        return self.sections


def take_apart(reader: Any, event: int, data: bytes) -> List[Section]:
    """Returns the sections of a frame that was sent in an event, as `reader` shows their contents."""
    it = Anatomy(reader, event, data)
    return it.take_all(it.take_nwk)


def take_content_apart(reader: Any, event: int, title: str, content: bytes, is_command: bool) -> Any:
    """Returns the sections of the content of a layer alone: an APS frame, or an APS command without its header."""
    it = Anatomy(reader, event, content)
    it.cursor = Cursor('content', title, content)
    return it.take_all(it.take_command if is_command else lambda: it.take_aps('APS'))
