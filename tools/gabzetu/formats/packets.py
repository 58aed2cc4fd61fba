"""Reads the packets of capture files: pcap, modified pcap, pcapng and Daintree, also packed by gzip, from a file or a
pipe that may still grow."""
import collections
import logging
import struct
import sys
import zlib
from typing import Any, Iterator, NamedTuple

from ..errors import MISSING, UNREADABLE, Stop, reason_of
from . import daintree
from .sources import LONGEST, Ended, Source

DEBIAN = '/usr/lib/python3/dist-packages'
MOST_KEPT = 0xFFFF
# Modified pcap, as some old tcpdumps write it: each record has 8 more bytes, with the interface and the protocol.
MODIFIED = {b'\xa1\xb2\xcd\x34': b'\xa1\xb2\xc3\xd4', b'\x34\xcd\xb2\xa1': b'\xd4\xc3\xb2\xa1'}
MORE_OF_MODIFIED = 8
PCAPNG = b'\n\r\r\n'
PCAP = (b'\xd4\xc3\xb2\xa1', b'\xa1\xb2\xc3\xd4', b'\x4d\x3c\xb2\xa1', b'\xa1\xb2\x3c\x4d')
MAGICS = (*PCAP, *MODIFIED, PCAPNG, daintree.MAGIC)
# Of pcapng: the option with the seconds that an interface adds, and the blocks without a packet that Wireshark counts
# as packets, so that they have numbers here too: custom blocks, a journal of systemd, and events of Sysdig.
TIME_OFFSET, COUNTED_BLOCKS = 14, (0x0BAD, 0x40000BAD, 9, 0x204, 0x216, 0x221)

# number: from 1, as other tools count; time: in seconds; link: the link type; kept: the bytes that are there; whole:
# how many bytes the packet had
Packet = collections.namedtuple('Packet', 'number time link kept whole')



class NoPacket(NamedTuple):
    """What a block without a packet has in place of the data of one. No link type has this number."""

    linktype: int = 0xFFFF
    wirelen: int = 0


NO_PACKET = NoPacket()


def import_scapy() -> Any:
    """Imports scapy and returns it. Another Python than Debian's finds Debian's package too, which is plain Python."""
    logging.getLogger('scapy').setLevel(logging.CRITICAL)
    if DEBIAN not in sys.path:
        sys.path.append(DEBIAN)
    try:
        import scapy.config
        import scapy.error
        import scapy.utils
    except ImportError as error:
        raise Stop(
            f'python3-scapy is missing, which reads captures (Debian: apt install python3-scapy): {error}', MISSING
        ) from error
    return scapy


def pcap_of(scapy: Any) -> Any:
    """Returns the reader of scapy for pcap, which notes where the record begins that it reads."""

    class Pcap(scapy.utils.RawPcapReader):
        def __init__(self, path: str, source: Source, magic: bytes) -> None:
            super().__init__(path, source, MODIFIED.get(magic, magic))
            self.more = MORE_OF_MODIFIED if magic in MODIFIED else 0

        def _read_packet(self, *size: int) -> tuple:
            self.begin = self.f.position
            head = self.f.read(16 + self.more)
            if len(head) < 16 + self.more:
                raise EOFError
            seconds, part, kept, whole = struct.unpack_from(self.endian + 'IIII', head)
            meta = self.PacketMetadata(sec=seconds, usec=part, wirelen=whole, caplen=kept)
            return self.f.read(kept)[:MOST_KEPT], meta

    return Pcap


def pcapng_of(scapy: Any) -> Any:
    """Returns the same for pcapng, with the rules of Wireshark for what scapy passes over."""

    class Pcapng(scapy.utils.RawPcapNgReader):
        def _read_block(self, *size: int) -> Any:
            self.begin = self.f.position
            self.blocktypes.update(dict.fromkeys(COUNTED_BLOCKS, lambda block, size: (b'', NO_PACKET)))
            return super()._read_block(*size)

        def _read_block_shb(self) -> None:
            self.interfaces, self.offsets = [], []
            super()._read_block_shb()

        def _read_block_idb(self, block: bytes, size: int) -> None:
            super()._read_block_idb(block, size)
            link, snap, *more = self.interfaces[-1]
            self.interfaces[-1] = (link, snap or LONGEST, *more)  # 0 is no limit, and scapy takes it as one
            self.offsets.append(offset_in(block[8:], self.endian))

        def _check_interface_id(self, number: int) -> None:
            if number >= len(self.interfaces):
                raise Ended(f'it is of interface {number}, and the file describes {len(self.interfaces)}')
            self.offset = self.offsets[number]

    return Pcapng


def offset_in(options: bytes, order: str) -> int:
    """Returns the seconds that an interface adds to the times of its packets: the option if_tsoffset, or 0."""
    while len(options) >= 4:
        code, size = struct.unpack_from(order + 'HH', options)
        if code == TIME_OFFSET and size == 8 and len(options) >= 12:
            return struct.unpack_from(order + 'q', options, 4)[0]
        options = options[4 + size + -size % 4 :] if code else b''
    return 0


def time_of(reader: Any, meta: Any) -> float:
    """Returns the seconds at which a packet was caught."""
    if meta is NO_PACKET:
        return 0
    if not hasattr(meta, 'tshigh'):
        return meta.sec + meta.usec / (1e9 if reader.nano else 1e6)
    return reader.offset + ((meta.tshigh or 0) << 32 | (meta.tslow or 0)) / meta.tsresol


def open_reader(path: str, source: Any, magic: bytes) -> Any:
    """Returns scapy's reader of a capture, whose magic number tells the format."""
    scapy = import_scapy()
    kind = pcapng_of(scapy) if magic == PCAPNG else pcap_of(scapy)
    reader = kind.__new__(kind)
    try:
        kind.__init__(reader, path, source, magic)
    except scapy.error.Scapy_Exception as error:
        raise Stop(
            f'{path}: this is no capture file of pcap, pcapng or Daintree, for it begins with {magic!r}', UNREADABLE
        ) from error
    return reader


def read_records(reader: Any) -> Iterator[Packet]:
    """Yields the packets of a reader. Raises Ended where the last one isn't whole."""
    number = 0
    for number, (kept, meta) in enumerate(reader, 1):
        if len(kept) < min(getattr(meta, 'caplen', 0), MOST_KEPT):
            raise Ended()
        link = meta.linktype if hasattr(meta, 'linktype') else reader.linktype
        yield Packet(number, time_of(reader, meta), link & 0xFFFF, kept, meta.wirelen)
    if reader.f.position != reader.begin:
        raise Ended()


def read_any(path: str, source: Any) -> Iterator[Any]:
    """Returns an iterator of the packets of a capture of any form."""
    magic = source.read(4)
    if not magic:
        raise Stop(f'{path}: this is no capture file, for it is empty', UNREADABLE)
    if daintree.begins(magic, source):
        records = daintree.read_records(source)
        return (Packet(number, *it) for number, it in enumerate(records, 1))
    if magic[:1] in (b'#', b'k', b'c', b'a', b'f') and magic.isascii():
        raise Stop(f'{path}: this is text, and no capture file. `gabzetu inspect` reads text captures.', UNREADABLE)
    return read_records(open_reader(path, source, magic))


def read_packets(path: str, source: Any) -> Iterator[Packet]:
    """Yields the packets of a capture in their order.

    Raises Ended where the file ends within a packet, and Stop where it is no capture or can't be read."""
    try:
        yield from read_any(path, source)
    except OSError as error:
        raise Stop(f'{path}: cannot be read: {reason_of(error)}', UNREADABLE) from error
    except (EOFError, ValueError, zlib.error) as error:
        raise Stop(f'{path}: the capture is broken: {error}', UNREADABLE) from error
