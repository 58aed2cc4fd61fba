#!/usr/bin/env python3
"""open.py CAPTURE KEY ..: opens the frames of a capture under these keys, with the library for C.

It writes the lines `I nwk ..` and `I aps ..` of the inspector's report (docs/FORMATS.md) for each frame. CAPTURE has
the lines that `tc inspect` reads; only `frame` and `addr` are used here. TC_LIBRARY names the shared object,
out/lib/libtc_c.so if it isn't set; tools/lib makes it."""
import ctypes
import os
import sys

ROOM = 127
MALFORMED, NOT_SECURED, NO_SOURCE = 1, 2, 3
LABELS = ("data", "network", "transport", "load")
HERE = os.path.dirname(os.path.realpath(__file__))


class Opened(ctypes.Structure):
    _fields_ = [
        ("source", ctypes.c_uint64),
        ("counter", ctypes.c_uint32),
        ("len", ctypes.c_uint32),
        ("label", ctypes.c_uint8),
        ("control", ctypes.c_uint8),
    ]


def library(path):
    """Loads the library and declares its calls."""
    tc = ctypes.CDLL(path)
    buffer = [ctypes.c_char_p, ctypes.c_size_t]
    tc.tc_open_nwk.argtypes = [*buffer, *buffer, *buffer, ctypes.POINTER(Opened)]
    tc.tc_open_aps.argtypes = [*buffer, *buffer, ctypes.c_uint64, *buffer, ctypes.POINTER(Opened)]
    for call in (tc.tc_open_nwk, tc.tc_open_aps):
        call.restype = ctypes.c_uint32
    return tc


class Ring:
    """Keys, and the search for the first one that opens a frame."""

    def __init__(self, tc, keys):
        self.tc, self.keys = tc, keys

    def first(self, call):
        """Returns the number of the first key that opens, and what it opens; or why none does."""
        content, opened, number = ctypes.create_string_buffer(ROOM), Opened(), 0
        for place, key in enumerate(self.keys, 1):
            number = call(key, content, opened)
            if number == 0:
                return place, opened, content.raw[: opened.len]
            if number in (MALFORMED, NOT_SECURED, NO_SOURCE):
                break
        return {MALFORMED: "malformed", NOT_SECURED: "not-secured", NO_SOURCE: "no-source"}.get(number, "no-key"), None, None

    def nwk(self, frame):
        return self.first(lambda key, content, opened: self.tc.tc_open_nwk(
            frame, len(frame), key, len(key), content, ROOM, ctypes.byref(opened)))

    def aps(self, frame, source):
        return self.first(lambda key, content, opened: self.tc.tc_open_aps(
            frame, len(frame), key, len(key), source, content, ROOM, ctypes.byref(opened)))


def nwk_header(frame, addresses):
    """Returns the length of a NWK header and the IEEE address of its source, or 0 if it isn't known."""
    control, at = int.from_bytes(frame[:2], "little"), 8
    source = addresses.get(int.from_bytes(frame[4:6], "little"), 0)
    at += 8 if control & 0x0800 else 0
    if control & 0x1000:
        source = int.from_bytes(frame[at : at + 8], "little")
        at += 8
    at += 1 if control & 0x0100 else 0
    return at + (2 + 2 * frame[at] if control & 0x0400 else 0), source


def report(ring, number, frame, addresses):
    """Yields the lines of a frame."""
    place, opened, content = ring.nwk(frame)
    if opened:
        yield f"{number} nwk key {place} {opened.source:016X} {opened.counter} {content.hex().upper() or '-'}"
    else:
        yield f"{number} nwk {place}"
    if not opened and place != "not-secured" or frame[0] & 3 != 0:
        return
    at, source = nwk_header(frame, addresses)
    payload = content if opened else frame[at:]
    place, opened, content = ring.aps(payload, source)
    if opened:
        label = LABELS[opened.label]
        yield f"{number} aps key {place} {label} {opened.source:016X} {opened.counter} {content.hex().upper() or '-'}"
    else:
        yield f"{number} aps {place}"


def main():
    if len(sys.argv) < 3:
        sys.exit(__doc__)
    path = os.environ.get("TC_LIBRARY") or f"{HERE}/../../out/lib/libtc_c.so"
    if not os.path.exists(path):
        sys.exit(f"open.py: there is no library {path}: run tools/lib first, or name one by TC_LIBRARY")
    ring = Ring(library(path), [bytes.fromhex(key) for key in sys.argv[2:]])
    with open(sys.argv[1], encoding="ascii", errors="replace") as it:
        lines = [line.split() for line in it.read().splitlines() if line and not line.startswith("#")]
    addresses = {int(short, 16): int(eui, 16) for _, short, eui in (it for it in lines if it[0] == "addr")}
    frames = [bytes.fromhex(words[1]) for words in lines if words[0] == "frame"]
    for number, frame in enumerate(frames, 1):
        for line in report(ring, number, frame, addresses):
            print(line)


if __name__ == "__main__":
    main()
