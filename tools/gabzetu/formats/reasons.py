"""Says in words why a layer of a frame stayed closed, by what the frame's headers show and what of its PAN did
open."""
import collections
from typing import Any, Optional, Sequence, Union

from . import headers
from .addresses import payload_of

LEVELS = {
    0: 'none',
    1: 'MIC-32',
    2: 'MIC-64',
    3: 'MIC-128',
    4: 'ENC',
    5: 'ENC-MIC-32',
    6: 'ENC-MIC-64',
    7: 'ENC-MIC-128',
}
NETWORK = 1
KINDS = {0: 'link key', 1: 'network key', 2: 'link key (transport)', 3: 'link key (load)'}


class Known:
    """What opened: the PANs of which something did, and the sequence numbers of the network keys that opened, PAN by
    PAN."""

    def __init__(self) -> None:
        self.sequences, self.opened = collections.defaultdict(set), 0

    def note(self, frame: Any, layers: tuple) -> None:
        """Takes the layers of a frame into account."""
        if layers and layers[0].key and frame.nwk:
            self.opened += 1
            self.sequences[frame.pan].add(frame.nwk.auxiliary.sequence)


def level_words(auxiliary: headers.Auxiliary) -> Optional[str]:
    """Returns the words on a security level that is not read, or none."""
    return (
        f'level {auxiliary.level} ({LEVELS[auxiliary.level]}), which is not read'
        if auxiliary.level not in (0, 5)
        else None
    )


def why_malformed(payload: bytes) -> str:
    """Returns what kind of frame it is that tc does not read as NWK."""
    if len(payload) >= 1 and payload[0] >> 2 & 15 == headers.GREEN_POWER:
        return 'Green Power frame (NWK version 3), which is not read'
    if len(payload) >= 1 and payload[0] & 3 == headers.INTER_PAN and payload[0] >> 2 & 15 == headers.VERSION:
        return 'inter-PAN frame (NWK type 3), which is not read'
    if len(payload) >= 1 and payload[0] >> 2 & 15 != headers.VERSION:
        return f'no Zigbee frame: NWK version {payload[0] >> 2 & 15}'
    return 'broken NWK frame'


def why_nwk(frame: Any, known: Known) -> str:
    """Returns why the NWK layer of a frame has no key."""
    auxiliary = frame.nwk.auxiliary
    if auxiliary.identifier != 1:
        return f'NWK layer under a {KINDS[auxiliary.identifier]}, which is not read'
    if level_words(auxiliary):
        return f'NWK security {level_words(auxiliary)}'
    if frame.pan not in known.sequences:
        return f'PAN {frame.pan or "unknown"}: no network key of it is known'
    if auxiliary.sequence not in known.sequences[frame.pan]:
        return f'PAN {frame.pan}: network key of sequence {auxiliary.sequence} is not known'
    return (
        f'PAN {frame.pan}: network key of sequence {auxiliary.sequence} is known and does not open it: '
        'broken on the air, a level other than 5, or another key'
    )


def why_aps(frame: Any, layers: Sequence[Any], reason: str) -> str:
    """Returns why the APS layer of a frame did not open."""
    nwk = frame.nwk
    if reason == 'no-source':
        return f'APS: the EUI of {nwk.source} is not known'
    payload = payload_of(nwk, layers)
    aps = headers.read_aps(payload)
    if level_words(aps.auxiliary):
        return f'APS security {level_words(aps.auxiliary)}'
    return f'APS: {KINDS[aps.auxiliary.identifier]} of {nwk.source} and {nwk.to} is not known'


def why_broken(frame: Any, layers: Sequence[Any], kind: str) -> str:
    """Returns why tc does not read a layer within the NWK layer."""
    payload = payload_of(frame.nwk, layers) if kind == 'aps' else None
    try:
        auxiliary = headers.read_aps(payload).auxiliary if payload is not None else None
    except headers.Malformed:
        auxiliary = None
    if auxiliary is not None and auxiliary.identifier == NETWORK:
        return 'APS layer under the network key, which is not read'
    return f'broken {kind.upper()} frame'


def why_closed(frame: Any, layers: Union[list, tuple], known: Known) -> Optional[str]:
    """Returns the words for the first layer of a frame that tc did not open, or none where all are open."""
    if frame.nwk is None:
        return why_malformed(frame.payload)
    try:
        for it in layers:
            if it.reason == 'malformed':
                return why_malformed(frame.payload) if it.kind == 'nwk' else why_broken(frame, layers, it.kind)
            if it.reason == 'no-key' and it.kind == 'nwk':
                return why_nwk(frame, known)
            if it.reason in ('no-key', 'no-source'):
                return (
                    why_aps(frame, layers, it.reason) if it.kind == 'aps' else f'inner frame of a Tunnel: {it.reason}'
                )
    except headers.Malformed:
        return 'broken frame'
    return None
