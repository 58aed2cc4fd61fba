"""What is found in a capture: verdicts of tc on counters, nonces and keys, and hints."""
from typing import Callable, Dict, List, NamedTuple, Optional, Tuple

from ..formats import names
from ..opening import WELL_KNOWN, Frame, Layer
from . import evidence
from .sealed import Command, Sealed, parts_of
from .signs import Signs

# Seconds in which the same bytes are the same frame once more: repeated for want of an acknowledgement, or passed on.
SAME_FRAME = {'nwk': 2.0, 'aps': 10.0}
TRANSPORT_KEY, END_OF_KEY = 5, 18
MOST_ASKED = 500
HINT = 'hint'


class Finding(NamedTuple):
    """Something that is wrong. `verdict` is the answer of tc that shows it, or `hint`."""

    kind: str
    verdict: str
    packets: List[int]
    text: str


class Stream(NamedTuple):
    """What was heard under one key from one source: its layers by counters, and how often the counter went back.

    Under a counter there is one layer, or more if its nonce is used again."""

    last: Sealed
    seen: Dict[int, List[Sealed]]
    segment: int


def same_bytes(one: Sealed, other: Sealed) -> bool:
    """Returns whether two layers of one counter are the same. An APS layer may come in another NWK frame."""
    return one.content == other.content and one.header == other.header


class Watcher:
    """Takes the frames of a capture in their order, and finds what is wrong."""

    def __init__(self) -> None:
        self.streams: Dict[tuple, Stream] = {}
        self.accepted: List[Tuple[str, Sealed]] = []
        self.findings: List[Finding] = []
        self.signs = Signs()
        self.told_keys: set = set()
        self.asked = 0

    def take(self, frame: Frame, layers: List[Layer]) -> List[Finding]:
        """Takes a frame with its layers, and returns what is found."""
        before = len(self.findings)
        commands = []
        for sealed, command in parts_of(frame, layers):
            if sealed is not None:
                self.take_sealed(sealed)
            if command is not None:
                commands.append(command)
                self.take_command(frame, command)
        self.findings += [Finding(kind, HINT, at, text) for kind, at, text in self.signs.take(frame, layers, commands)]
        return self.findings[before:]

    def finish(self) -> List[Finding]:
        """Returns what is found at the end, and asks tc whether the rest is sound."""
        last = [Finding(kind, HINT, at, text) for kind, at, text in self.signs.finish()]
        self.findings += last
        self.rest = evidence.rest_is_sound(self.accepted)
        return last

    # ---- counters and nonces

    def take_sealed(self, it: Sealed) -> None:
        """Takes a layer that tc opened, and holds its counter against those of its source."""
        stream = self.streams.get(it.stream())
        if stream is None:
            self.go_on(it, 0, {})
            return
        earlier = stream.seen.get(it.counter)
        if earlier:
            self.take_again(earlier, it)
        elif it.counter < stream.last.counter:
            self.find_counter('counter-back', stream.last, it, f'after {stream.last.counter}: it went back')
            self.go_on(it, stream.segment + 1, stream.seen)
        else:
            self.go_on(it, stream.segment, stream.seen)

    def go_on(self, it: Sealed, segment: int, seen: Dict[int, List[Sealed]]) -> None:
        """Notes a layer as the last one of its source."""
        seen[it.counter] = [it]
        self.streams[it.stream()] = Stream(it, seen, segment)
        self.accepted.append((f'w{segment}', it))

    def take_again(self, earlier: List[Sealed], it: Sealed) -> None:
        """Takes a layer whose counter was there before, and notes it for copies of it that may follow."""
        same = next((place for place, other in enumerate(earlier) if same_bytes(other, it)), None)
        if same is None:
            self.find_nonce(earlier[0], it)
            earlier.append(it)
        elif it.time - earlier[same].time >= SAME_FRAME[it.layer]:
            packet = earlier[same].packet
            self.find_counter('replay', earlier[same], it, f'with the bytes of packet {packet}: a replay')
            earlier[same] = it

    def find_counter(self, kind: str, first: Sealed, second: Sealed, how: str) -> None:
        """Adds a finding on a counter, if tc says so."""
        head = f'{second.source} uses counter {second.counter} of the {second.layer.upper()} layer'
        is_so, words = self.ask(evidence.counter_of_second, first, second)
        if is_so:
            self.findings.append(Finding(kind, words, [first.packet, second.packet], f'{head} {how}'))

    def find_nonce(self, first: Sealed, second: Sealed) -> None:
        """Adds a finding on a nonce that is used twice, if tc says so."""
        is_so, words = self.ask(evidence.nonce_of_second, first, second)
        text = (
            f'{second.source} seals other bytes under counter {second.counter} of the {second.layer.upper()} layer, '
            f'which packet {first.packet} has: whoever hears both learns from them'
        )
        if is_so:
            self.findings.append(Finding('nonce-twice', words, [first.packet, second.packet], text))

    def ask(self, question: Callable[..., Tuple[bool, str]], *what: object) -> Tuple[bool, str]:
        """Returns the answer of tc, or after many questions that it wasn't asked."""
        self.asked += 1
        return question(*what) if self.asked <= MOST_ASKED else (True, f'not asked after {MOST_ASKED} findings')

    # ---- keys

    def take_command(self, frame: Frame, command: Command) -> None:
        """Takes a command, and looks at the key that a Transport-Key carries."""
        content = command.content
        if command.layer != 'aps' or content[0] != TRANSPORT_KEY or len(content) < END_OF_KEY:
            return
        kind, key = content[1], content[2:END_OF_KEY].hex().upper()
        what = names.KEY_TYPES.get(kind, f'key of type {kind}')
        if command.sealed is None and command.nwk is None:
            self.add_key('key-in-clear', HINT, frame, f'a {what} travels in clear: whoever hears it has it')
        elif command.sealed is None and kind != evidence.NETWORK_KEY:
            text = f'a {what} travels under the network key alone: each member of the network has it'
            self.add_key('key-under-network-key', HINT, frame, text)
        elif command.sealed is not None and command.sealed.key == WELL_KNOWN:
            is_so, words = self.ask(evidence.key_goes_outside, command.sealed, kind, key)
            text = f'a {what} travels under the well-known key: whoever hears it has it'
            self.add_key('key-under-well-known', words if is_so else HINT, frame, text)

    def add_key(self, kind: str, verdict: str, frame: Frame, text: str) -> None:
        """Adds a finding on a key, once for all copies of a frame."""
        to: Optional[str] = frame.nwk.to if frame.nwk else None
        if (kind, text, to) not in self.told_keys:
            self.told_keys.add((kind, text, to))
            self.findings.append(Finding(kind, verdict, [frame.number], text))
