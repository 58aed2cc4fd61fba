"""Finds out whether packets carry check sequences, judges these and takes them off.

The link type says what the last two bytes of a packet are, and is wrong often: some radios put their own words in
their place, or leave them out. So packets that are alike are looked at together before one of them is judged."""
import binascii
import collections
import struct
from typing import Any, Iterator, Optional, Set, Tuple

from .links import LeftOut

MIRROR = bytes(int(f'{byte:08b}'[::-1], 2) for byte in range(256))
MODES = ('auto', 'crc', 'ti', 'none', 'ignore')
COMMAND_SIZES = {1: 2, 2: 4, 3: 2, 4: 1, 5: 1, 6: 1, 7: 1, 9: 1}
FEW, ENOUGH = 8, 2000

# What was seen of packets that are alike. right: with a right check sequence; ok: with the bit of a TI chip that says
# so; same: how often their last two bytes are which; longer: how many packets of a known size are longer by how many
# bytes
Evidence = collections.namedtuple('Evidence', 'packets right ok same longer')


def check_of(body: bytes) -> bytes:
    """Returns the check sequence of a packet: CRC with polynomial 1021, reflected, first value 0, low byte first."""
    return struct.pack('>H', binascii.crc_hqx(body.translate(MIRROR), 0)).translate(MIRROR)


def address_size(mode: int) -> int:
    """Returns the number of bytes of an address of this mode."""
    return {2: 2, 3: 8}.get(mode, 0)


def size_of(packet: bytes) -> Optional[int]:
    """Returns the size of an acknowledgement or MAC command without its check sequence, or none for other packets."""
    if len(packet) < 3:
        return None
    control = packet[0] | packet[1] << 8
    to, source = control >> 10 & 3, control >> 14 & 3
    if control >> 12 & 3 > 1 or control & 8:
        return None
    if control & 7 == 2:
        return 3 if not to and not source else None
    size = (
        3 + (2 + address_size(to) if to else 0) + ((0 if control & 64 else 2) + address_size(source) if source else 0)
    )
    if control & 7 != 3 or len(packet) <= size or packet[size] not in COMMAND_SIZES:
        return None
    return size + COMMAND_SIZES[packet[size]]


def note(seen: Evidence, packet: bytes) -> Evidence:
    """Adds a whole packet to the evidence."""
    last = packet[-2:]
    size = size_of(packet)
    longer = seen.longer + collections.Counter([len(packet) - size]) if size is not None else seen.longer
    return Evidence(
        seen.packets + 1,
        seen.right + (check_of(packet[:-2]) == last),
        seen.ok + (last[1] >= 128),
        seen.same + collections.Counter([last]),
        longer,
    )


def decide(seen: Evidence, said: str) -> str:
    """Returns what the last two bytes are, by the evidence and what the link type says: crc, ti, ignore or none."""
    if seen.packets == 0 or seen.right * 20 >= seen.packets:
        return 'crc' if seen.packets else said
    without, behind = seen.longer[0], seen.longer[2]
    if without > behind:
        return 'none'
    is_ok = seen.ok * 10 >= seen.packets * 9
    if behind > without:
        return 'ti' if is_ok else 'ignore'
    if seen.packets < FEW or said == 'none':
        return said
    if is_ok:
        return 'ti'
    return 'ignore' if seen.same.most_common(1)[0][1] * 4 >= seen.packets * 3 else said


class Checks:
    """Takes check sequences off. In the mode `auto` the packets that were learned decide how, kind by kind."""

    def __init__(self, mode: str = 'auto') -> None:
        self.mode, self.seen, self.said, self.decided = mode, {}, {}, {}

    def learn(self, wrapped: Any) -> None:
        """Takes a packet as evidence on those of its kind."""
        before = self.seen.get(wrapped.kind) or Evidence(0, 0, 0, collections.Counter(), collections.Counter())
        if self.mode == 'auto' and before.packets < ENOUGH and 3 <= wrapped.whole == len(wrapped.kept):
            self.seen[wrapped.kind], self.said[wrapped.kind] = note(before, wrapped.kept), wrapped.check
            self.decided.pop(wrapped.kind, None)

    def how(self, wrapped: Any) -> str:
        """Returns what the last two bytes of a packet are: crc, ti, ignore or none."""
        if self.mode != 'auto':
            return self.mode
        if wrapped.kind not in self.decided:
            seen = self.seen.get(wrapped.kind)
            self.decided[wrapped.kind] = decide(seen, wrapped.check) if seen else wrapped.check
        return self.decided[wrapped.kind]

    def in_use(self) -> Set[str]:
        """Returns the ways in which check sequences are judged."""
        return set(self.decided.values()) if self.mode == 'auto' else {self.mode}

    def surprises(self) -> Iterator[Tuple[str, str, str]]:
        """Yields the kinds of packets whose last two bytes aren't what their link type says, with both words."""
        for kind, how in sorted(self.decided.items()):
            if how != self.said.get(kind, how):
                yield kind, self.said[kind], how

    def take_off(self, wrapped: Any) -> Tuple[bytes, int]:
        """Returns the bytes of a packet without its check sequence, and how many bytes this one has.

        Raises LeftOut for a packet that isn't whole or has a wrong check sequence."""
        how = self.how(wrapped)
        if len(wrapped.kept) != wrapped.whole:
            raise LeftOut(
                'cut by the snap length' if len(wrapped.kept) < wrapped.whole else 'more bytes than it had on the air'
            )
        if how == 'none':
            return wrapped.kept, 0
        if wrapped.whole < 2:
            raise LeftOut('too short for a check sequence')
        body, last = wrapped.kept[:-2], wrapped.kept[-2:]
        if how == 'crc' and last != check_of(body):
            raise LeftOut('wrong check sequence')
        if how == 'ti' and last[1] < 128:
            raise LeftOut('wrong check sequence, says the chip')
        return body, 2
