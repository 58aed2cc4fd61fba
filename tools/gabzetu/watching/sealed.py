"""The sealed layers of the frames of a capture that tc opened, with all that a line of a transcript says of them."""
import collections
from typing import Iterator, List, NamedTuple, Optional, Union

from ..formats import headers
from ..formats.addresses import content_of, payload_of
from ..opening import Frame, Layer

LEVEL, KEPT = 5, 0xF8
LENGTH_OF_EUI = 8
Header = Union[headers.Nwk, headers.Aps]


class Sealed(NamedTuple):
    """A layer that tc opened. `layer` is nwk or aps; key, source, header and content are hexadecimal digits."""

    packet: int
    time: float
    layer: str
    label: str
    key: str
    source: str
    counter: int
    control: int
    header: str
    content: str

    def term(self) -> str:
        """Returns the words of the layer in a line of a transcript."""
        head = f'{self.layer} {self.label} {self.key} {self.source} {self.counter} {self.control:02X}'
        return f'{head} {self.header} {self.content}'

    def stream(self) -> tuple:
        """Returns what its counter counts for: the layer, the key and the source."""
        return self.layer, self.key, self.source


# content: of an APS command, or of a NWK command; sealed: its own layer if that was sealed, else none; nwk: the key of
# the NWK layer, or none if that isn't secured
Command = collections.namedtuple('Command', 'layer content sealed nwk')


def authenticated(data: bytes, rest: bytes, auxiliary: headers.Auxiliary) -> tuple:
    """Returns the control byte and the header of a sealed layer as its seal has them, at level 5."""
    end = len(data) - len(rest)
    size = 5 + (LENGTH_OF_EUI if auxiliary.source else 0) + (0 if auxiliary.sequence is None else 1)
    start = end - size
    control = data[start] & KEPT | LEVEL
    return control, (data[:start] + bytes([control]) + data[start + 1 : end]).hex().upper()


def sealed_of(frame: Frame, layer: Optional[Layer], name: str, data: bytes, header: Header) -> Optional[Sealed]:
    """Returns the layer of some bytes whose header was read, or none if it isn't open."""
    if layer is None or layer.key is None or header.auxiliary is None:
        return None
    control, digits = authenticated(data, header.rest, header.auxiliary)
    label = layer.label or 'network'
    return Sealed(
        frame.number, frame.time, name, label, layer.key, layer.source, layer.counter, control, digits, layer.content
    )


def layer_of(layers: List[Layer], kind: str) -> Optional[Layer]:
    """Returns the layer of a kind, or none."""
    return next((it for it in layers if it.kind == kind), None)


def parts_of(frame: Frame, layers: List[Layer]) -> Iterator[tuple]:
    """Yields the opened layers of a frame and the commands in it, outermost first: pairs of which one is none."""
    if frame.nwk is None:
        return
    outer = sealed_of(frame, layer_of(layers, 'nwk'), 'nwk', frame.payload, frame.nwk)
    yield outer, None
    payload = payload_of(frame.nwk, layers)
    if payload is None:
        return
    key = outer.key if outer else None
    if frame.nwk.kind == headers.COMMAND:
        yield None, Command('nwk', payload, outer, key)
        return
    try:
        yield from parts_of_aps(frame, layers, payload, key)
    except headers.Malformed:
        return


def parts_of_aps(frame: Frame, layers: List[Layer], payload: bytes, key: Optional[str]) -> Iterator[tuple]:
    """Yields the same of an APS frame, and of the one within it if it is a Tunnel."""
    aps = headers.read_aps(payload)
    sealed = sealed_of(frame, layer_of(layers, 'aps'), 'aps', payload, aps)
    yield sealed, None
    content = content_of(aps, layers)
    if aps.kind != headers.COMMAND or not content:
        return
    yield None, Command('aps', content, sealed, key)
    if content[0] == headers.TUNNEL and len(content) > 1 + LENGTH_OF_EUI:
        yield from parts_of_inner(frame, layers, content[1 + LENGTH_OF_EUI :], key)


def parts_of_inner(frame: Frame, layers: List[Layer], data: bytes, key: Optional[str]) -> Iterator[tuple]:
    """Yields the same of the APS frame in a Tunnel."""
    aps, layer = headers.read_aps(data), layer_of(layers, 'inner')
    sealed = sealed_of(frame, layer, 'aps', data, aps)
    yield sealed, None
    if sealed and sealed.content != '-' and aps.kind == headers.COMMAND:
        yield None, Command('aps', bytes.fromhex(sealed.content), sealed, key)
