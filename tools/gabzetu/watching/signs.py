"""Hints that a network does something wrong. They follow the rules of the specification, and tc doesn't judge them."""
from typing import Dict, Iterator, List, Optional, Tuple

from ..formats import headers, names
from ..formats.mac import digits
from ..opening import Frame, Layer
from .sealed import Command

TRANSPORT, REMOVE, REQUEST, SWITCH = 5, 7, 8, 9
LEAVE, IS_REQUEST, COMES_BACK = 4, 0x40, 0x20
NETWORK_KEY = 1
# Commands of the NWK layer that a device without the network key sends and gets.
REJOIN = (6, 7)
# Seconds in which devices may go on as before: after a switch, after a removal, and until a request is answered.
PATIENCE = 10.0

# kind, packets, text
Sign = Tuple[str, List[int], str]


class Signs:
    """Takes frames in their order, and finds what a network should not do."""

    def __init__(self) -> None:
        self.switched: Dict[str, tuple] = {}
        self.removed: Dict[str, tuple] = {}
        self.requests: Dict[tuple, tuple] = {}
        self.clear: Dict[tuple, Sign] = {}
        self.told: set = set()
        self.secured: set = set()
        self.time = 0.0

    def take(self, frame: Frame, layers: List[Layer], commands: List[Command]) -> List[Sign]:
        """Takes a frame with its layers and commands, and returns what is found."""
        self.time = max(self.time, frame.time)
        if frame.nwk is None:
            return []
        for command in commands:
            self.take_command(frame, command)
        self.take_closed(frame, layers)
        self.take_clear(frame, layers)
        return list(self.senders(frame, layers))

    def finish(self) -> List[Sign]:
        """Returns what is found at the end of a capture."""
        late = [
            ('request-unanswered', [packet], f'{short} of PAN {pan} asks for a key, and no answer is heard')
            for (pan, short), (packet, time) in self.requests.items()
            if self.time - time >= PATIENCE
        ]
        return [*late, *(sign for (pan, *_), sign in self.clear.items() if pan in self.secured)]

    # ---- commands

    def take_command(self, frame: Frame, command: Command) -> None:
        """Notes a command that says what is to come."""
        kind, content = command.content[:1], command.content
        if command.layer == 'nwk':
            self.take_leave(frame, content)
        elif kind == bytes([SWITCH]) and len(content) > 1:
            self.switched[frame.pan] = (content[1], frame.time, frame.number)
        elif kind == bytes([REMOVE]) and len(content) >= 9:
            self.removed[digits(content[1:9])] = (frame.time, frame.number)
        elif kind == bytes([REQUEST]):
            self.requests.setdefault((frame.pan, frame.nwk.source), (frame.number, frame.time))
        elif kind == bytes([TRANSPORT]):
            self.take_transport(frame, content)

    def take_leave(self, frame: Frame, content: bytes) -> None:
        """Notes that a device says that it leaves, and doesn't come back."""
        is_leave = content[:1] == bytes([LEAVE]) and len(content) > 1
        if is_leave and not content[1] & (IS_REQUEST | COMES_BACK) and frame.nwk.source_eui:
            self.removed[frame.nwk.source_eui] = (frame.time, frame.number)

    def take_transport(self, frame: Frame, content: bytes) -> None:
        """Notes a key for a device: it is a member again, or its request is answered."""
        at = 19 if content[1:2] == bytes([NETWORK_KEY]) else 18
        self.removed.pop(digits(content[at : at + 8]), None)
        if content[1:2] != bytes([NETWORK_KEY]):
            self.requests.pop((frame.pan, frame.nwk.to), None)

    def take_closed(self, frame: Frame, layers: List[Layer]) -> None:
        """Takes an APS layer that stayed closed as the answer to a request: it may be one."""
        if any(it.kind in ('aps', 'inner') and it.key is None and it.reason == 'no-key' for it in layers):
            self.requests.pop((frame.pan, frame.nwk.to), None)

    # ---- senders

    def senders(self, frame: Frame, layers: List[Layer]) -> Iterator[Sign]:
        """Yields what is wrong with the sender of a frame whose NWK layer is open."""
        source = next((it.source for it in layers if it.kind == 'nwk' and it.key), None)
        if source is None:
            return
        self.secured.add(frame.pan)
        sequence, since, packet = self.switched.get(frame.pan, (None, 0.0, 0))
        is_late = sequence is not None and frame.time - since > PATIENCE
        if is_late and frame.nwk.auxiliary.sequence != sequence:
            text = f'{source} uses network key {frame.nwk.auxiliary.sequence} after the switch to {sequence}'
            yield from self.once(('old-network-key', source), [packet, frame.number], text)
        since, packet = self.removed.get(source, (None, 0))
        if since is not None and frame.time - since > PATIENCE:
            text = f'{source} was removed or has left, and is heard again'
            yield from self.once(('removed-heard', source), [packet, frame.number], text)

    def once(self, what: tuple, packets: List[int], text: str) -> Iterator[Sign]:
        """Yields a sign the first time that it is found."""
        if what not in self.told:
            self.told.add(what)
            yield what[0], packets, text

    def take_clear(self, frame: Frame, layers: List[Layer]) -> None:
        """Notes a frame in clear that should be secured. It counts if others of its PAN are."""
        what = what_in_clear(frame)
        if what:
            text = f'{frame.nwk.source} of PAN {frame.pan} sends {what} in clear, in a network that is secured'
            self.clear.setdefault((frame.pan, frame.nwk.source, what), ('unsecured', [frame.number], text))


def what_in_clear(frame: Frame) -> Optional[str]:
    """Returns what a frame in clear carries that should be secured, or none."""
    if frame.nwk.auxiliary is not None or not frame.nwk.rest:
        return None
    if frame.nwk.kind == headers.COMMAND:
        return None if frame.nwk.rest[0] in REJOIN else f'a {names.network_command(frame.nwk.rest)}'
    try:
        aps = headers.read_aps(frame.nwk.rest)
    except headers.Malformed:
        return None
    return 'application data' if aps.kind == headers.DATA and aps.auxiliary is None else None
