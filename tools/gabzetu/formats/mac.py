"""Reads the MAC header of packets of IEEE 802.15.4, and says why one has no frame for tc (docs/FORMATS.md, "Capture
files")."""
import collections
import struct
from typing import Optional, Tuple

from .links import LeftOut

LONGEST = 127
BEACON, DATA, ACK, COMMAND = 0, 1, 2, 3
KINDS = {BEACON: 'beacon', ACK: 'acknowledgement', COMMAND: 'MAC command'}
ASSOCIATION_RESPONSE = 2

# pan, to, source: text of hexadecimal digits, or none; payload: the bytes behind the header
Header = collections.namedtuple('Header', 'kind version is_secured pan to source payload')


def digits(data: bytes) -> str:
    """Returns an address as it is written: most significant digit first."""
    return data[::-1].hex().upper()


def read_address(packet: bytes, at: int, mode: int) -> tuple:
    """Returns an address and the place behind it. A mode of 0 has none."""
    end = at + (0, 0, 2, 8)[mode]
    if mode == 1:
        raise LeftOut('reserved address mode')
    if end > len(packet):
        raise LeftOut('MAC header cut')
    return (digits(packet[at:end]) if mode else None), end


def read_pan(packet: bytes, at: int) -> Tuple[str, int]:
    """Returns the PAN at a place, and the place after it. Raises LeftOut where the header is cut."""
    if at + 2 > len(packet):
        raise LeftOut('MAC header cut')
    return digits(packet[at : at + 2]), at + 2


def read_header(packet: bytes) -> Header:
    """Returns the header of a packet of version 0 or 1. Raises LeftOut where it isn't whole."""
    if len(packet) < 3:
        raise LeftOut('MAC header cut')
    (control,) = struct.unpack_from('<H', packet)
    to_mode, source_mode, at, pan, source_pan = control >> 10 & 3, control >> 14 & 3, 3, None, None
    if 1 in (to_mode, source_mode):
        raise LeftOut('reserved address mode')
    if to_mode:
        pan, at = read_pan(packet, at)
    to, at = read_address(packet, at, to_mode)
    if source_mode and not control & 64:
        source_pan, at = read_pan(packet, at)
    source, at = read_address(packet, at, source_mode)
    return Header(control & 7, control >> 12 & 3, bool(control & 8), pan or source_pan, to, source, packet[at:])


def read_data(packet: bytes, check_size: int) -> Optional[Header]:
    """Returns the header of a data packet that has a payload for tc, or raises LeftOut with the reason why it has
    none."""
    if len(packet) + check_size > LONGEST:
        raise LeftOut(f'longer than {LONGEST} bytes')
    if len(packet) < 3:
        raise LeftOut('MAC header cut')
    (control,) = struct.unpack_from('<H', packet)
    if control & 7 != DATA:
        raise LeftOut(KINDS.get(control & 7, f'MAC frame of type {control & 7}'))
    if control >> 12 & 3 > 1:
        raise LeftOut('802.15.4-2015 data frame' if control >> 12 & 3 == 2 else 'MAC frame of version 3')
    if control & 8:
        raise LeftOut('security at the MAC')
    header = read_header(packet)
    if not header.payload:
        raise LeftOut('data frame without a payload')
    return header


def read_association(packet: bytes) -> Optional[tuple]:
    """Returns PAN, short address and EUI that an association response in clear gives, or none for another packet."""
    if len(packet) < 3 or packet[0] & 0x0F != COMMAND or packet[1] >> 4 & 3 > 1:
        return None
    try:
        header = read_header(packet)
    except LeftOut:
        return None
    it = header.payload
    if len(it) != 4 or it[0] != ASSOCIATION_RESPONSE or it[3] != 0 or not header.to or len(header.to) != 16:
        return None
    return header.pan, digits(it[1:3]), header.to
