"""Finds the packet of IEEE 802.15.4 in a captured one, whatever its link type: behind TAP, PHY or PPI headers, or
those of IP, UDP and ZEP."""
import collections
import struct
from typing import Any, Optional

from .packets import import_scapy

ZEP_PORT = 17754
PLAIN = {195: 'crc', 230: 'none', 147: 'crc'}
PHY, TAP, PPI = 215, 283, 192
# 4 bytes of a protocol family, or none, and then IP of either version
BEFORE_IP = {0: 4, 108: 4, 12: 0, 14: 0, 101: 0}
START_OF_FRAME = 0xA7
# ZEP header: its size, and the places of the mode and the length of the packet
ZEP_FORMS = {1: (16, 6, 15), 2: (32, 7, 31)}

# kept: the bytes that are there; whole: how many it had on the air; check: what its last two bytes are (none, crc or
# ti), as its link type says; kind: names those packets that are alike in it
Wrapped = collections.namedtuple('Wrapped', 'kept whole check kind')


class LeftOut(Exception):
    """Why a packet has no frame for tc."""


def in_tap(kept: bytes, whole: int) -> Wrapped:
    """Returns the packet behind a TAP header: version, reserved, length, and entries of type, length and value."""
    if len(kept) < 4 or kept[0] != 0:
        raise LeftOut('no TAP header of version 0')
    size = struct.unpack_from('<H', kept, 2)[0]
    if size < 4 or size > len(kept):
        raise LeftOut('TAP header that is not whole')
    at, check = 4, 0
    while at + 4 <= size:
        kind, length = struct.unpack_from('<HH', kept, at)
        if kind == 0 and length >= 1 and at + 4 < size:
            check = kept[at + 4]
        at += 4 + (length + 3) // 4 * 4
    if check not in (0, 1):
        raise LeftOut('check sequence that has not 2 bytes')
    return Wrapped(kept[size:], whole - size, 'crc' if check == 1 else 'none', f'TAP {check}')


def in_ppi(packet: Any) -> Any:
    """Returns the captured packet behind a PPI header: version, flags, length, and link type of what follows."""
    if len(packet.kept) < 8 or packet.kept[0] != 0:
        raise LeftOut('no PPI header of version 0')
    size, link = struct.unpack_from('<HI', packet.kept, 2)
    if size < 8 or size > len(packet.kept) or link == PPI:
        raise LeftOut('PPI header that is not whole')
    return packet._replace(link=link, kept=packet.kept[size:], whole=packet.whole - size)


def in_phy(kept: bytes, whole: int) -> Wrapped:
    """Returns the packet behind a PHY header: preamble of 4 bytes, start of frame, and the number of bytes."""
    if len(kept) < 6 or kept[4] != START_OF_FRAME:
        raise LeftOut('no PHY header')
    size = kept[5] & 0x7F
    return Wrapped(kept[6 : 6 + size], size, 'crc', f'link type {PHY}')


def in_zep(data: bytes) -> Wrapped:
    """Returns the packet behind a ZEP header. By its mode the last two bytes are the check sequence or a TI chip's
    words."""
    if data[:2] != b'EX' or len(data) < 4 or data[2] not in ZEP_FORMS:
        raise LeftOut('no ZEP packet')
    if data[2] == 2 and data[3] != 1:
        raise LeftOut('ZEP packet without a frame')
    size, mode, length = ZEP_FORMS[data[2]]
    if len(data) < size:
        raise LeftOut('cut within its ZEP header')
    check = 'crc' if data[mode] else 'ti'
    return Wrapped(data[size : size + data[length]], data[length], check, f'ZEP {check}')


def looks_like_zep(data: bytes, whole: int) -> bool:
    """Returns whether a payload of UDP, of which the bytes `data` are there, begins with a ZEP header whose length is
    that of what is behind it."""
    if data[:2] != b'EX' or len(data) < 4 or data[2] not in ZEP_FORMS or (data[2] == 2 and data[3] != 1):
        return False
    size, _, length = ZEP_FORMS[data[2]]
    return len(data) >= size and whole == size + data[length]


class Links:
    """Unwraps packets of all link types; scapy reads what is before UDP.

    ZEP packets are those of one UDP port, or without one those of ZEP's port and what looks like ZEP on any other."""

    def __init__(self, zep_port: Optional[int] = None) -> None:
        self.zep_port, self.other_ports = zep_port, collections.Counter()
        self.scapy: Any = None

    def unwrap(self, packet: Any) -> Wrapped:
        """Returns the packet of IEEE 802.15.4 in a captured one, or raises LeftOut."""
        if packet.link in PLAIN:
            return Wrapped(packet.kept, packet.whole, PLAIN[packet.link], f'link type {packet.link}')
        if packet.link == TAP:
            return in_tap(packet.kept, packet.whole)
        if packet.link == PHY:
            return in_phy(packet.kept, packet.whole)
        return self.unwrap(in_ppi(packet)) if packet.link == PPI else self.in_udp(packet)

    def load(self) -> None:
        """Imports the layers of scapy that lead to UDP, once."""
        if self.scapy is None:
            self.scapy = import_scapy()
            import scapy.layers.inet
            import scapy.layers.inet6
            import scapy.layers.l2  # noqa: F401: so that link types are known

            self.udp, self.ip, self.ip6 = scapy.layers.inet.UDP, scapy.layers.inet.IP, scapy.layers.inet6.IPv6

    def layers_of(self, packet: Any) -> tuple:
        """Returns the reader of scapy for a captured packet, and the bytes that it reads."""
        if packet.link in BEFORE_IP:
            body = packet.kept[BEFORE_IP[packet.link] :]
            return (self.ip6 if body[:1] and body[0] >> 4 == 6 else self.ip), body
        return self.scapy.config.conf.l2types.num2layer.get(packet.link), packet.kept

    def in_udp(self, packet: Any) -> Optional[Wrapped]:
        """Returns what the ZEP packet in a UDP packet holds. Raises LeftOut where there is none."""
        self.load()
        kind, body = self.layers_of(packet)
        if kind is None:
            raise LeftOut(f'link type {packet.link}, which is not read')
        try:
            read = kind(body)
        except Exception:  # scapy raises whatever it meets in broken packets
            raise LeftOut('broken packet around ZEP') from None
        if self.udp not in read:
            raise LeftOut('no ZEP packet')
        udp = read[self.udp]
        data = udp.original[8 : udp.len]
        if (self.zep_port or ZEP_PORT) in (udp.sport, udp.dport):
            return in_zep(data)
        if not looks_like_zep(data, udp.len - 8):
            raise LeftOut('no ZEP packet')
        self.other_ports[udp.dport] += 1
        if self.zep_port:
            raise LeftOut('ZEP packet of another port')
        return in_zep(data)
