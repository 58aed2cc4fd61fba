"""Reads the inspector's reports (docs/FORMATS.md, "The inspector's report"), and the frames that they are of."""
import collections
import re
import struct
from typing import Any, Dict, List, Optional, Tuple

from . import daintree, frames, headers, names
from .checks import check_of
from .fields import read_report_line
from .links import LeftOut
from .mac import read_data
from .numbers import read_number
from ..errors import UNREADABLE, Stop
from ..output import read_input

# text: the whole file; layers: of each frame by its number, the fields of its lines; keys, end: the fields of these
# lines
Report = collections.namedtuple('Report', 'text layers keys end')

# number: of the packet in the capture, from 1; time: in seconds, or none; pan: in digits, or none; data: from the NWK
# header on, or none where no capture shows it
Heard = collections.namedtuple('Heard', 'number time pan data')

MOST_FRAMES = 100000
END = re.compile(r'^end \d+ \d+ \d+$', re.MULTILINE | re.ASCII)
MAGICS = {b'\xd4\xc3\xb2\xa1': '<', b'\xa1\xb2\xc3\xd4': '>', b'\x4d\x3c\xb2\xa1': '<', b'\xa1\xb2\x3c\x4d': '>'}
NANOSECONDS = (b'\x4d\x3c\xb2\xa1', b'\xa1\xb2\x3c\x4d')
WITH_CHECK, PACKET_NUMBER = 195, re.compile(r'#\s*packet\s+(\d+)', re.ASCII)


def is_report(text: str) -> bool:
    """Returns whether a text is a report, by its end line."""
    return END.search(text) is not None


def parse_report(text: str, path: str) -> Report:
    """Returns the report of a text. The path is for messages."""
    layers, keys, end = collections.defaultdict(list), [], None
    for number, line in enumerate(text.splitlines(), 1):
        fields = read_report_line(line.split(' '))
        if fields is None or not is_well_formed(fields):
            raise Stop(f'{path}: line {number} is no line of a report', UNREADABLE)
        if 'frame' in fields and fields['kind'] != 'key':
            layers[fields['frame']].append(fields)
        elif fields['kind'] == 'key':
            keys.append(fields)
        elif fields['kind'] == 'end':
            end = fields
    if end is None or end['frames'] > MOST_FRAMES:
        raise Stop(
            f'{path}: ' + ('there is no end line' if end is None else f'a report is of at most {MOST_FRAMES} frames'),
            UNREADABLE,
        )
    if not all(1 <= place <= end['frames'] for place in layers):
        raise Stop(f'{path}: a line is of a frame that the end line does not count', UNREADABLE)
    return Report(text, dict(layers), keys, end)


def is_digits(text: str, size: Optional[int] = None) -> bool:
    """Returns whether a text is bytes in digits, of a number of digits where it is given."""
    pattern = f'[0-9A-F]{{{size}}}' if size else '-|(?:[0-9A-F]{2})+'
    return re.fullmatch(pattern, text, re.ASCII) is not None


def is_well_formed(fields: dict) -> bool:
    """Returns whether the fields of a report's line are such as tc writes them."""
    numbers = [name for name in ('k', 'counter', 'round', 'frames', 'keys', 'rounds') if name in fields]
    if not all(isinstance(fields[name], int) for name in numbers):
        return False
    if 'content' in fields:
        return is_digits(fields['source'], 16) and is_digits(fields['content'])
    return fields['kind'] != 'key' or is_digits(fields['key'], 32)


def read_text_capture(text: str) -> List[Heard]:
    """Returns what a text capture shows of its frames.

    A comment `packet N` before one gives the number of its packet."""
    found, number = [], None
    for line in text.splitlines():
        words, comment = line.split(), PACKET_NUMBER.match(line)
        number = read_number(comment.group(1)) if comment else number
        if words[:1] == ['frame'] and len(words) == 2:
            found.append(Heard(number or len(found) + 1, None, None, bytes.fromhex(words[1].replace('-', ''))))
            number = None
    return found


def read_pcap(data: bytes, path: str) -> List[Heard]:
    """Returns what a pcap shows of the packets that have a payload, by the rule of `sniff` (docs/FORMATS.md, "Capture
    files")."""
    order, at, number, found = MAGICS[data[:4]], 24, 0, []
    link = struct.unpack_from(order + 'I', data, 20)[0] & 0xFFFF
    unit = 1e9 if data[:4] in NANOSECONDS else 1e6
    while at + 16 <= len(data):
        seconds, part, kept, whole = struct.unpack_from(order + 'IIII', data, at)
        packet, number, at = data[at + 16 : at + 16 + kept], number + 1, at + 16 + kept
        if at > len(data):
            raise Stop(f'{path}: packet {number} is cut', UNREADABLE)
        header = payload_of(packet, link) if kept == whole else None
        if header:
            found.append(Heard(number, seconds + part / unit, header.pan, header.payload))
    return found


def payload_of(packet: bytes, link: int) -> Any:
    """Returns the MAC header of a packet that has a payload, or none."""
    size = 2 if link == WITH_CHECK else 0
    if len(packet) < size or (size and packet[-2:] != check_of(packet[:-2])):
        return None
    try:
        return read_data(packet[: len(packet) - size], size)
    except LeftOut:
        return None


def read_any_capture(path: str) -> List[Heard]:
    """Returns what another capture shows, as `gabzetu open` reads it."""
    from ..capture import Capture

    return [Heard(it.number, it.time, it.pan, it.payload) for part in Capture(path).parts() for it in part]


def read_heard(path: str) -> List[Heard]:
    """Returns what a capture shows of the frames that a report is of: a text capture, a pcap, or what `gabzetu open`
    reads."""
    data = read_input(path)
    if (
        data[:4] in MAGICS
        and len(data) >= 24
        and struct.unpack_from(MAGICS[data[:4]] + 'I', data, 20)[0] & 0xFFFF in (195, 230)
    ):
        return read_pcap(data, path)
    if data.startswith(daintree.MAGIC):
        return read_any_capture(path)
    try:
        return read_text_capture(data.decode('ascii'))
    except ValueError:
        return read_any_capture(path)


def content_of(fields: dict) -> Optional[bytes]:
    """Returns the content of a layer that opened, or none."""
    return bytes.fromhex(fields['content'].replace('-', '')) if fields and 'content' in fields else None


class Reader(frames.Reader):
    """Reads the frames of a report: its lines show the contents of sealed layers.

    Frames are numbered as in the report."""

    def __init__(self, report: Report, heard: Dict[int, Heard], names: dict) -> None:
        self.names, self.keys = names, {it['k']: it['key'] for it in report.keys}
        self.set_terms({place: self.terms(report.layers.get(place, []), it.data) for place, it in heard.items()})

    def describe_aps(self, event: int, data: bytes, counters: List[str]) -> Tuple[List[str], List[str]]:
        """Returns the words on an APS frame, of a data frame those that `gabzetu open` has."""
        texts, counters = super().describe_aps(event, data, counters)
        aps = headers.read_aps(data)
        if aps.kind != headers.DATA or texts == ['sealed']:
            return texts, counters
        return [names.data_words(aps.profile, aps.cluster, self.content(event, frames.read_aps(data)))], counters

    def terms(self, layers: List[dict], data: bytes) -> Dict[str, frames.Term]:
        """Returns the terms of a frame by their headers.

        Without its bytes, they begin with the content of its NWK layer."""
        found, by_kind = {}, {it['kind']: it for it in layers}
        try:
            payload = self.payload(found, by_kind, data) if data else content_of(by_kind.get('nwk'))
            if payload is not None and 'aps' in by_kind:
                command = self.add(found, frames.read_aps(payload), by_kind['aps'])
                if command and command[0] == frames.TUNNEL:
                    self.add(found, frames.read_aps(command[9:]), by_kind.get('inner'))
        except frames.Malformed:
            pass
        return found

    def payload(self, found: dict, by_kind: Dict[str, dict], data: bytes) -> Optional[bytes]:
        """Adds the term of the NWK layer, and returns the layer's payload or none."""
        return self.add(found, frames.read_nwk(data), by_kind.get('nwk'))

    def add(self, found: Dict[str, frames.Term], part: frames.Layer, fields: dict) -> Optional[bytes]:
        """Adds the term of a sealed layer, and returns the layer's content, or none where it stayed closed."""
        if part.payload is not None:
            return part.payload
        content = content_of(fields)
        if content is not None:
            found[part.header] = frames.Term(self.keys.get(fields['k'], ''), fields['source'], fields['content'])
        return content
