"""Learns which short address is which EUI, from the headers and contents of a capture, PAN by PAN."""
import collections
from typing import Any, Dict, Iterator, List, Optional, Sequence, Tuple

from . import headers
from .mac import digits

MOST_CANDIDATES = 8
LAST_SHORT = 0xFFF7
ANNOUNCE, NWK_ANSWER, IEEE_ANSWER = 0x0013, 0x8000, 0x8001
NOBODY = ('0' * 16, 'F' * 16)


def payload_of(nwk: headers.Nwk, layers: Sequence[Any]) -> Optional[bytes]:
    """Returns what a NWK frame carries: what tc opened of it, or what stands there in clear; none where it stays
    closed."""
    if nwk.auxiliary is None:
        return nwk.rest
    opened = [it.content for it in layers if it.kind == 'nwk' and it.content is not None]
    return bytes.fromhex(opened[0].replace('-', '')) if opened else None


def content_of(aps: headers.Aps, layers: Sequence[Any]) -> Optional[bytes]:
    """Returns what an APS frame carries, as payload_of does of a NWK frame."""
    if aps.auxiliary is None:
        return aps.rest
    opened = [it.content for it in layers if it.kind == 'aps' and it.content is not None]
    return bytes.fromhex(opened[0].replace('-', '')) if opened else None


def pair_in(aps: headers.Aps, content: bytes) -> Optional[Tuple[str, str]]:
    """Returns the short address and the EUI that a content names together, or none."""
    if aps.kind == headers.DATA and aps.profile == 0 and aps.cluster == ANNOUNCE and len(content) >= 11:
        return digits(content[1:3]), digits(content[3:11])
    if aps.kind == headers.DATA and aps.profile == 0 and aps.cluster in (NWK_ANSWER, IEEE_ANSWER):
        return (digits(content[10:12]), digits(content[2:10])) if len(content) >= 12 and content[1] == 0 else None
    if aps.kind == headers.COMMAND and content[:1] == bytes([headers.UPDATE_DEVICE]) and len(content) >= 11:
        return digits(content[9:11]), digits(content[1:9])
    return None


class Addresses:
    """The EUIs that were learned of each short address of each PAN, in their order."""

    def __init__(self) -> None:
        self.pans, self.count = collections.defaultdict(dict), 0

    def learn(self, pan: str, short: str, eui: str) -> None:
        """Notes that a short address of a PAN is that of an EUI. Addresses of nobody are passed over."""
        if pan is None or eui in NOBODY or int(short, 16) > LAST_SHORT:
            return
        known = self.pans[pan].setdefault(short, [])
        if eui not in known and len(known) < MOST_CANDIDATES:
            known.append(eui)
            self.count += 1

    def learn_all(self, triples: list) -> None:
        """Notes triples of PAN, short address and EUI."""
        for it in triples:
            self.learn(*it)

    def pairs(self) -> Iterator[Tuple[str, str]]:
        """Yields the short addresses of all PANs with their EUIs."""
        yield from ((short, eui) for known in self.pans.values() for short, euis in known.items() for eui in euis)

    def learn_from_headers(self, frames: list) -> None:
        """Learns from the headers that frames show."""
        for frame in frames:
            self.learn_from_header(frame)

    def learn_from_header(self, frame: Any) -> None:
        """Learns from the headers of a frame. The NWK seal is that of the node that sent the packet."""
        nwk = frame.nwk
        if nwk is None:
            return
        if nwk.source_eui:
            self.learn(frame.pan, nwk.source, nwk.source_eui)
        if nwk.to_eui:
            self.learn(frame.pan, nwk.to, nwk.to_eui)
        if nwk.auxiliary and nwk.auxiliary.source and frame.source and len(frame.source) == 4:
            self.learn(frame.pan, frame.source, nwk.auxiliary.source)

    def learn_from_layers(self, frame: Any, layers: tuple) -> None:
        """Learns from what tc opened of a frame."""
        nwk = frame.nwk
        payload = payload_of(nwk, layers) if nwk and nwk.kind == headers.DATA else None
        if payload is None:
            return
        try:
            aps = headers.read_aps(payload)
        except headers.Malformed:
            return
        if nwk.auxiliary and aps.auxiliary and aps.auxiliary.source:
            self.learn(frame.pan, nwk.source, aps.auxiliary.source)
        content = content_of(aps, layers)
        pair = pair_in(aps, content) if content else None
        if pair:
            self.learn(frame.pan, *pair)

    def tables(self, pan: Optional[str]) -> List[Dict[str, str]]:
        """Returns tables from short address to EUI for a PAN: as many as some address has EUIs, at least one."""
        known = self.pans.get(pan, {})
        count = max(map(len, known.values()), default=1)
        return [{short: euis[min(place, len(euis) - 1)] for short, euis in known.items()} for place in range(count)]
