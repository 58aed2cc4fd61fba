"""Writes what was opened of a capture: lines for people and JSON lines, and at the end the keys and why the rest
stayed closed."""
import collections
from typing import Any, Iterator, List, Optional

from .capture import Tally
from .formats.contents import describe
from .formats.reasons import Known, why_closed
from .formats.words import counted
from .opening import is_closed, opened_layers

WIDTH = 70
NO_CHECK = (
    'All sealed frames fail: does the file carry check sequences although its type says that it has none? '
    'Try --fcs crc, ti or ignore.'
)
WRONG_CHECK = (
    'Nearly all check sequences are wrong: the radio may have put words of its own in their place, or left them out. '
    'Try --fcs ti, ignore or none.'
)
NO_KEY = 'No network key is known: give one by --key, --code or --keys-from, or a capture of a join under a known key.'


def addresses_of(frame: Any) -> tuple:
    """Returns the short addresses of the NWK header, source and destination, or those of the MAC where it isn't
    read."""
    return (frame.nwk.source, frame.nwk.to) if frame.nwk else (frame.source, frame.to)


def layer_words(layer: Any, ring: Any) -> str:
    """Returns the words of a layer: under which key it opened, or why it didn't."""
    if layer.key:
        label = f' {layer.label}' if layer.label else ''
        return f'{layer.kind} key {ring.keys[layer.key].number}{label}'
    return f'{layer.kind} {layer.reason}'


def line_of(frame: Any, layers: tuple, ring: Any, is_again: bool = False) -> str:
    """Returns the line of a frame: number of the packet, PAN, addresses, layers, and what it carries.

    One that was shown before, with fewer layers open, says so."""
    source, to = addresses_of(frame)
    shown = [layer_words(it, ring) for it in layers if it.reason != 'not-secured'] or ['not secured']
    head = (
        f'packet {frame.number:<5} pan {frame.pan or "----"}  {source or "----"} > {to or "----"}  {", ".join(shown)}'
    )
    what = describe(frame, layers) + (' (again)' if is_again else '')
    return f'{head:<{WIDTH}}  {what}' if what else head


def layer_object(layer: Any, ring: Any) -> dict:
    """Returns the fields of a layer, named as those of a report, without those that it has not."""
    number = ring.keys[layer.key].number if layer.key else None
    fields = {'kind': layer.kind, 'k': number, **layer._asdict()}
    return {name: value for name, value in fields.items() if value is not None}


def object_of(frame: Any, layers: tuple, ring: Any, is_again: bool = False) -> dict:
    """Returns the JSON object of a frame. One that was shown before, with fewer layers open, has `again`."""
    source, to = addresses_of(frame)
    return {
        'kind': 'packet',
        'packet': frame.number,
        'time': round(frame.time, 6),
        'pan': frame.pan,
        'source': source,
        'destination': to,
        'layers': [layer_object(it, ring) for it in layers],
        'what': describe(frame, layers),
        **({'again': True} if is_again else {}),
    }


def key_line(key: Any, ring: Any) -> str:
    """Returns the line of a key: its number, itself, and where it comes from."""
    by = f', which key {ring.keys[key.by].number} opened' if key.by else ''
    return f'  key {key.number:<3} {key.key}  {key.origin}{by}'


def key_object(key: Any, ring: Any) -> dict:
    """Returns the JSON object of a key."""
    by = ring.keys[key.by].number if key.by else None
    fields = {'kind': 'key', 'k': key.number, 'key': key.key, 'origin': key.origin, 'packet': key.packet, 'by': by}
    return {name: value for name, value in fields.items() if value is not None}


def row_lines(title: str, tally: Tally) -> Optional[List[str]]:
    """Returns a line for each reason with its count and first packet, or nothing where there is none."""
    lines = [
        f'  {count:>5}  {reason} ({"" if count == 1 else "the first is "}packet {first})'
        for reason, count, first in tally.rows()
    ]
    return [title, *lines] if lines else []


def category_of(layers: tuple) -> str:
    """Returns how far a frame is open: opened, partly, closed, or clear where nothing is sealed."""
    is_shut = is_closed(layers) or any(it.reason == 'malformed' for it in layers)
    if opened_layers(layers):
        return 'partly' if is_shut else 'opened'
    return 'closed' if is_shut else 'clear'


class Listing:
    """Counts what is shown of a capture, and says at the end what there was."""

    def __init__(self, capture: Any, opener: Any) -> None:
        self.capture, self.opener = capture, opener
        self.counts, self.known, self.malformed, self.categories = collections.Counter(), Known(), Tally(), {}
        self.start = None

    def note(self, frame: Any, layers: tuple) -> None:
        """Counts a frame, or counts it anew where more of it opened since."""
        category = category_of(layers)
        self.start = frame.time if self.start is None else self.start
        self.counts[category] += 1
        if frame.number in self.categories:
            self.counts[self.categories.pop(frame.number)] -= 1
        if is_closed(layers):
            self.categories[frame.number] = category
        elif category in ('closed', 'partly'):
            self.malformed.add(why_closed(frame, layers, self.known), frame.number)
        self.known.note(frame, layers)

    def since(self, frame: Any) -> str:
        """Returns the seconds of a frame since the first one, as the beginning of its line."""
        return f'{frame.time - self.start:>12.6f} s  '

    def closed(self) -> Tally:
        """Returns the tally of the reasons why frames are not open, by all that is known at the end."""
        tally = self.malformed.copy()
        for frame, layers in self.opener.closed.values():
            tally.add(why_closed(frame, layers, self.known), frame.number)
        return tally

    def hints(self) -> List[str]:
        """Returns sentences on what to try."""
        wrong = sum(
            count for reason, count, _ in self.capture.left_out.rows() if reason.startswith('wrong check sequence')
        )
        hints = [WRONG_CHECK] if wrong * 10 > self.capture.packets * 9 else []
        if self.counts['closed'] and not self.known.opened:
            hints += [NO_CHECK, NO_KEY] if 'none' in self.capture.checks.in_use() else [NO_KEY]
        links = self.capture.links
        ports = links.other_ports.most_common(3) if links.zep_port else []
        return hints + [
            f'{counted(count, "packet")} to UDP port {port} look like ZEP: leave out --zep-port, or give this one.'
            for port, count in ports
        ]

    def lines(self) -> List[str]:
        """Returns the lines of the end, for people."""
        it = self.counts
        counts = (
            f'{it["opened"]} opened, {it["partly"]} opened in part, {it["closed"]} closed, {it["clear"]} not secured'
        )
        ring = self.opener.ring
        return [
            '',
            f'{counted(self.capture.packets, "packet")}, {counted(self.capture.frames, "frame")}: {counts}',
            'Keys:',
            *(key_line(key, ring) for key in ring.keys.values()),
            *row_lines('Why layers stayed closed:', self.closed()),
            *row_lines('Packets without a frame:', self.capture.left_out),
            *(f'Hint: {hint}' for hint in self.hints()),
        ]

    def objects(self) -> Iterator[dict]:
        """Yields the JSON objects of the end."""
        yield from (key_object(key, self.opener.ring) for key in self.opener.ring.keys.values())
        rows: List[tuple] = [('reason', *row) for row in self.closed().rows()]
        rows += [('left-out', *row) for row in self.capture.left_out.rows()]
        yield from (dict(zip(('kind', 'reason', 'count', 'first'), row)) for row in rows)
        yield {
            'kind': 'end',
            'packets': self.capture.packets,
            'frames': self.capture.frames,
            'opened': self.counts['opened'],
            'partly': self.counts['partly'],
            'closed': self.counts['closed'],
            'clear': self.counts['clear'],
            'hints': self.hints(),
        }
