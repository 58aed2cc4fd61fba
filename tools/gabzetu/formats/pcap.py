"""Writes capture files (pcap, version 2.4) of link type 230: packets of IEEE 802.15.4 without a check sequence."""
import struct

LAST_SECOND = 0xFFFFFFFF
HEADER = struct.pack('<IHHIIII', 0xA1B2C3D4, 2, 4, 0, 0, 65535, 230)


def record(seconds: int, micros: int, kept: bytes, whole: None = None) -> bytes:
    """Returns the record of a packet of which the bytes `kept` are there, and which had `whole` bytes on the air."""
    return struct.pack('<IIII', seconds, micros, len(kept), len(kept) if whole is None else whole) + kept


def is_in_range(seconds: float) -> bool:
    """Returns whether a time fits the 32 bits that a record has for its seconds."""
    return 0 <= seconds < LAST_SECOND + 1


def record_at(seconds: float, kept: bytes) -> bytes:
    """Returns the record of a packet at a time. One that a record can't hold becomes the first or the last second."""
    seconds = min(max(seconds, 0), LAST_SECOND)
    return record(int(seconds), int(seconds % 1 * 1000000), kept)
