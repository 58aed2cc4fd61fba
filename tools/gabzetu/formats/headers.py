"""Reads the headers of NWK and APS frames (docs/FORMATS.md, "Frames"), as far as addresses and reasons need them."""
import collections
import struct
from typing import Optional, Tuple

from .mac import digits

DATA, COMMAND, ACK, INTER_PAN = 0, 1, 2, 3
VERSION, GREEN_POWER = 2, 3
UPDATE_DEVICE, TUNNEL = 6, 0x0E

# level: as it is on the air; identifier: which key (0 data, 1 network, 2 transport, 3 load); source: an EUI or none;
# sequence: of the network key or none
Auxiliary = collections.namedtuple('Auxiliary', 'level identifier counter source sequence')

# to, source: short addresses; to_eui, source_eui: none where they are absent; auxiliary: none where the frame isn't
# secured; rest: what is behind the headers
Nwk = collections.namedtuple('Nwk', 'kind version to source to_eui source_eui auxiliary rest')
Aps = collections.namedtuple('Aps', 'kind profile cluster auxiliary rest')


class Malformed(Exception):
    """Why bytes are no frame."""


def take(data: bytes, at: int, size: int) -> Tuple[bytes, int]:
    """Returns the bytes at a place, and the place after them. Raises Malformed where there are fewer."""
    if at + size > len(data):
        raise Malformed('header cut')
    return data[at : at + size], at + size


def read_auxiliary(data: bytes, at: int) -> Tuple[Auxiliary, int]:
    """Returns the auxiliary header at a place, and the place behind it."""
    fixed, at = take(data, at, 5)
    control, counter = struct.unpack('<BI', fixed)
    source = sequence = None
    if control & 0x20:
        address, at = take(data, at, 8)
        source = digits(address)
    if control >> 3 & 3 == 1:
        byte, at = take(data, at, 1)
        sequence = byte[0]
    return Auxiliary(control & 7, control >> 3 & 3, counter, source, sequence), at


def read_optional(data: bytes, at: int, is_there: int) -> tuple:
    """Returns an EUI where it is there, and the place behind it."""
    if not is_there:
        return None, at
    address, at = take(data, at, 8)
    return digits(address), at


def read_nwk(data: bytes) -> Nwk:
    """Returns the header of a NWK frame of version 2. Raises Malformed where it isn't whole or of another version."""
    fixed, at = take(data, 0, 8)
    control, to, source = struct.unpack_from('<HHH', fixed)
    if control >> 2 & 15 != VERSION or control & 3 not in (DATA, COMMAND):
        raise Malformed('another version or type')
    to_eui, at = read_optional(data, at, control & 1 << 11)
    source_eui, at = read_optional(data, at, control & 1 << 12)
    at += 1 if control & 1 << 8 else 0
    if control & 1 << 10:
        count, at = take(data, at, 1)
        _, at = take(data, at, 1 + 2 * count[0])
    auxiliary = None
    if control & 1 << 9:
        auxiliary, at = read_auxiliary(data, at)
    return Nwk(control & 3, VERSION, f'{to:04X}', f'{source:04X}', to_eui, source_eui, auxiliary, data[at:])


def try_nwk(data: bytes) -> Optional[Nwk]:
    """Returns the header of a NWK frame, or none where read_nwk raises."""
    try:
        return read_nwk(data)
    except Malformed:
        return None


def read_aps(data: bytes) -> Aps:
    """Returns the header of an APS frame. Raises Malformed where it isn't whole or of another type."""
    fixed, at = take(data, 0, 1)
    control, profile, cluster = fixed[0], None, None
    kind = control & 3
    if kind == INTER_PAN:
        raise Malformed('another type')
    if kind != COMMAND and not (kind == ACK and control & 0x10):
        first, at = take(data, at, 2 if control >> 2 & 3 == 3 else 1)
        fields, at = take(data, at, 5)
        cluster, profile = struct.unpack_from('<HH', fields)
    _, at = take(data, at, 1)
    if control & 0x80:
        extended, at = take(data, at, 1)
        _, at = take(data, at, 0 if extended[0] & 3 == 0 else 2 if kind == ACK else 1)
    auxiliary = None
    if control & 0x20:
        auxiliary, at = read_auxiliary(data, at)
    return Aps(kind, profile, cluster, auxiliary, data[at:])
