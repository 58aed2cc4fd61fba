"""Says what the frames of a transcript carry, by the layouts of docs/FORMATS.md ("Frames") and what its lines show of
contents."""
import collections
import struct
from typing import Dict, List, Optional, Tuple, Union

from .names import KEY_TYPES, aps_command, network_command

LEAVE, UPDATE, REMOVE, REQUEST, SWITCH, TUNNEL, VERIFY, CONFIRM, TRANSPORT = 4, 6, 7, 8, 9, 0x0E, 0x0F, 0x10, 5
DATA, COMMAND, ACK = 0, 1, 2

# One layer of a frame. to: the short destination of NWK, else none; header: as it is authenticated where it is sealed,
# in digits; counter: none where it isn't sealed; payload: none where it is sealed
Layer = collections.namedtuple('Layer', 'kind to header counter payload')

# What a line shows of a sealed layer: its base key, the source in its nonce, and the content, all in digits
Term = collections.namedtuple('Term', 'base source content')


class Malformed(Exception):
    """Why bytes are no frame."""


def layer(kind: int, to: Optional[int], data: bytes, size: int, is_secured: bool) -> Optional[Layer]:
    """Returns the layer whose header has `size` bytes. The auxiliary header follows it where the layer is secured."""
    if len(data) < size + (5 if is_secured else 0):
        raise Malformed('NWK header cut' if to is not None else 'APS header cut')
    if not is_secured:
        return Layer(kind, to, data[:size].hex().upper(), None, data[size:])
    control, counter = struct.unpack_from('<BI', data, size)
    end = size + 5 + (8 if control & 0x20 else 0) + (1 if control >> 3 & 3 == 1 else 0)
    real = data[:size] + bytes([control & 0xF8 | 5]) + data[size + 1 : end]
    return Layer(kind, to, real.hex().upper(), counter, None)


def read_nwk(data: bytes) -> Layer:
    """Returns the NWK layer of a frame."""
    if len(data) < 8:
        raise Malformed('NWK header cut')
    control, to = struct.unpack_from('<HH', data)
    size = 8 + (8 if control & 1 << 11 else 0) + (8 if control & 1 << 12 else 0) + (1 if control & 1 << 8 else 0)
    if control & 1 << 10:
        if len(data) <= size:
            raise Malformed('NWK header cut')
        size += 2 + 2 * data[size]
    return layer(control & 3, to, data, size, bool(control & 1 << 9))


def read_aps(data: bytes) -> Layer:
    """Returns the APS layer of a NWK payload."""
    if not data:
        raise Malformed('no APS frame')
    control = data[0]
    kind, is_group, is_short = control & 3, control >> 2 & 3 == 3, control & 0x10
    size = 2 if kind == COMMAND or (kind == ACK and is_short) else 9 if is_group else 8
    if control & 0x80:
        if len(data) <= size:
            raise Malformed('APS header cut')
        size += 1 if data[size] & 3 == 0 else 3 if kind == ACK else 2
    return layer(kind, None, data, size, bool(control & 0x20))


def counted(size: int) -> str:
    """Returns a number of bytes in words."""
    return f'{size} byte' + ('' if size == 1 else 's')


def short_key(key: str) -> str:
    """Returns the first digits of a key, by which people know it."""
    return key[:8] + '..'


class Reader:
    """Reads the frames of one transcript: its terms show the contents of sealed layers."""

    def __init__(self, events: Union[Dict[int, List[list]], dict], nodes: list) -> None:
        self.names = {node.eui: node.name for node in nodes}
        self.set_terms({event: self.terms_of(lines) for event, lines in events.items()})

    def set_terms(self, here: Dict[int, Dict[str, Term]]) -> None:
        """Takes the terms of each event by their headers. Of a term that comes again, the first is taken elsewhere."""
        self.here = collections.defaultdict(dict, here)
        self.anywhere = {header: term for event in sorted(here, reverse=True) for header, term in here[event].items()}

    @staticmethod
    def terms_of(lines: List[List[str]]) -> Dict[str, Term]:
        """Returns the terms of an event by their headers."""
        return {
            words[-2]: Term(words[-6], words[-5], words[-1])
            for words in lines
            if words[0] in ('seal', 'forge', 'accept')
        }

    def term(self, event: int, part: Layer) -> Optional[Term]:
        """Returns the term of a sealed layer, or none where no line shows it."""
        return self.here[event].get(part.header) or self.anywhere.get(part.header)

    def content(self, event: int, part: Layer) -> Optional[bytes]:
        """Returns the content of a layer, or none where no line shows it."""
        if part.payload is not None:
            return part.payload
        term = self.term(event, part)
        return None if term is None else bytes.fromhex(term.content.replace('-', ''))

    def name(self, address: bytes) -> str:
        """Returns the name of the node with an address as it stands in a frame, or the address."""
        eui = address[::-1].hex().upper()
        return self.names.get(eui, eui)

    def describe(self, event: int, data: bytes) -> Tuple[List[str], List[str]]:
        """Returns the lines that say what a frame carries, and the counters of its layers."""
        try:
            nwk = read_nwk(data)
            counters = [] if nwk.counter is None else [f'nwk {nwk.counter}']
            content = self.content(event, nwk)
            if content is None:
                return ['sealed'], counters
            if nwk.kind == COMMAND:
                return [network_command(content)], counters
            return self.describe_aps(event, content, counters)
        except (Malformed, IndexError) as why:
            return [f'{counted(len(data))}, ' + (str(why) if isinstance(why, Malformed) else 'command cut')], []

    def describe_aps(self, event: int, data: bytes, counters: List[str]) -> Tuple[List[str], List[str]]:
        """Returns the same of an APS frame."""
        aps = read_aps(data)
        counters = counters if aps.counter is None else counters + [f'aps {aps.counter}']
        content = self.content(event, aps)
        if content is None:
            return ['sealed'], counters
        if aps.kind != COMMAND:
            return [f'data, {counted(len(content))}' if aps.kind == DATA else 'acknowledgement'], counters
        return self.describe_command(event, content, counters)

    def describe_command(self, event: int, it: bytes, counters: List[str]) -> Tuple[List[str], List[str]]:
        """Returns the same of an APS command."""
        kind = it[0]
        if kind == TUNNEL:
            (first, *more), counters = self.describe_aps(event, it[9:], counters)
            return [f'Tunnel to {self.name(it[1:9])}: {first}', *more], counters
        if kind == TRANSPORT:
            sequence = f' ({it[18]})' if it[1] == 1 else ''
            what = KEY_TYPES.get(it[1], f'key of type {it[1]}')
            return ['Transport-Key', f'{what} {short_key(it[2:18].hex().upper())}{sequence}'], counters
        if kind == UPDATE:
            return [f'Update-Device: {self.name(it[1:9])}, status {it[11]}'], counters
        if kind == REMOVE:
            return [f'Remove-Device: {self.name(it[1:9])}'], counters
        if kind == REQUEST:
            return ['Request-Key' + (f': with {self.name(it[2:10])}' if it[1] == 2 else '')], counters
        if kind == SWITCH:
            return [f'Switch-Key: {it[1]}'], counters
        if kind == CONFIRM:
            return [f'Confirm-Key: status {it[1]}'], counters
        return [aps_command(it)], counters
