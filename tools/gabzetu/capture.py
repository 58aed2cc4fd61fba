"""Takes the frames of a capture out of its packets, part by part, and keeps count of what has none."""
from __future__ import annotations

import collections
import queue
import threading
import time
from typing import Any, Iterator, List, Optional, Tuple

from .formats import mac
from .formats.checks import Checks
from .formats.headers import try_nwk
from .formats.links import Links, LeftOut
from .formats.packets import read_packets
from .formats.sources import Ended, open_source
from .opening import MOST_FRAMES, Frame

QUIET, LONGEST_WAIT, MOST_WAITING = 0.3, 1.0, 10000


class Tally:
    """Counts by reason, with the first packet of each."""

    def __init__(self) -> None:
        self.counts, self.firsts = collections.Counter(), {}

    def add(self, reason: str, number: int) -> None:
        """Counts a packet."""
        self.counts[reason] += 1
        self.firsts[reason] = min(number, self.firsts.get(reason, number))

    def copy(self) -> Tally:
        """Returns another one that counts on."""
        other = Tally()
        other.counts.update(self.counts)
        other.firsts.update(self.firsts)
        return other

    def rows(self) -> List[Tuple[str, int, int]]:
        """Returns reason, count and first packet, the greatest count first."""
        rows = [(reason, count, self.firsts[reason]) for reason, count in self.counts.items()]
        return sorted(rows, key=lambda row: (-row[1], row[2]))


def parts_of_file(packets: Iterator[Any]) -> Iterator[list]:
    """Yields the packets of a file in parts, also those before a packet that isn't whole."""
    part, ended = [], None
    try:
        for packet in packets:
            part.append(packet)
            if len(part) == MOST_FRAMES:
                yield part
                part = []
    except Ended as error:
        ended = error
    yield part
    if ended:
        raise ended


def fill(waiting: queue.Queue, packets: Iterator[Any]) -> None:
    """Puts packets into a queue, and at the end what ended them: an exception or none."""
    try:
        for packet in packets:
            waiting.put(packet)
        waiting.put(None)
    except BaseException as error:  # pylint: disable=broad-except (it is raised again by who reads the queue)
        waiting.put(error)


def next_of(waiting: queue.Queue, seconds: float) -> Any:
    """Returns the next packet of a queue, or an empty text where none comes in time."""
    try:
        return waiting.get(timeout=max(seconds, 0))
    except queue.Empty:
        return ''


def live_part(waiting: queue.Queue) -> tuple:
    """Returns the packets that come until it is quiet for a moment, and what ended them: an empty text where they go
    on."""
    part, begun = [], time.monotonic()
    while len(part) < MOST_FRAMES:
        packet = next_of(waiting, min(QUIET, LONGEST_WAIT - (time.monotonic() - begun)))
        if packet is None or packet == '' or isinstance(packet, BaseException):
            return part, packet
        part.append(packet)
    return part, ''


def live_parts(packets: Iterator[Any]) -> Iterator[list]:
    """Yields the packets of a source that grows, in the parts in which they come."""
    waiting = queue.Queue(MOST_WAITING)
    threading.Thread(target=fill, args=(waiting, packets), daemon=True).start()
    ended: Any = ''
    while ended == '':
        part, ended = live_part(waiting)
        if part:
            yield part
    if ended is not None:
        raise ended


class Capture:
    """A capture that is read once. left_out counts the packets without a frame, by reason."""

    def __init__(
        self, path: str, checks: str = 'auto', zep_port: Optional[int] = None, is_followed: bool = False
    ) -> None:
        self.links = Links(zep_port)
        self.checks = Checks(checks)
        self.path, self.is_followed = path, is_followed
        self.packets, self.frames, self.left_out = 0, 0, Tally()
        self.associations = []

    def packet_parts(self) -> Iterator[list]:
        """Yields the packets of the capture in parts. A packet that isn't whole ends them, and is counted."""
        source = open_source(self.path, self.is_followed)
        packets = read_packets(self.path, source)
        try:
            for part in (live_parts if self.is_followed else parts_of_file)(packets):
                self.packets += len(part)
                yield part
        except Ended as ended:
            self.left_out.add(ended.reason, self.packets + 1)
        finally:
            source.close()

    def parts(self) -> Iterator[List[Frame]]:
        """Yields the frames of the capture in parts. After each part, left_out counts the packets so far."""
        for packets in self.packet_parts():
            frames = [self.frame_of(*it) for it in self.stripped(packets)]
            frames = [frame for frame in frames if frame is not None]
            self.frames += len(frames)
            yield frames

    def bodies(self) -> Iterator[List[Tuple[float, bytes]]]:
        """Yields time and bytes of each packet in parts, without check sequences, and no bytes where there are
        none."""
        for packets in self.packet_parts():
            bodies = {packet.number: body for packet, body, _ in self.stripped(packets)}
            yield [(packet.time, bodies.get(packet.number, b'')) for packet in packets]

    def take_associations(self) -> list:
        """Returns PAN, short address and EUI of the association responses since the last call."""
        taken, self.associations = self.associations, []
        return taken

    def unwrap(self, packet: Any) -> Any:
        """Returns what is in a packet, or none and keeps the reason."""
        try:
            return self.links.unwrap(packet)
        except LeftOut as why:
            self.left_out.add(str(why), packet.number)
            return None

    def strip(self, packet: Any, wrapped: Any) -> Optional[tuple]:
        """Returns a packet, its bytes and the size of its check sequence, or none and keeps the reason."""
        try:
            return (packet, *self.checks.take_off(wrapped))
        except LeftOut as why:
            self.left_out.add(str(why), packet.number)
            return None

    def stripped(self, packets: list) -> List[tuple]:
        """Returns each packet that is whole, its bytes, and the size of its check sequence. These are judged
        together."""
        wrapped = [
            (packet, it) for packet, it in ((packet, self.unwrap(packet)) for packet in packets) if it is not None
        ]
        for _, it in wrapped:
            self.checks.learn(it)
        return [it for it in (self.strip(*pair) for pair in wrapped) if it is not None]

    def frame_of(self, packet: Any, body: bytes, check_size: int) -> Optional[Frame]:
        """Returns the frame of a packet, or none and keeps the reason."""
        given = mac.read_association(body)
        if given:
            self.associations.append(given)
        try:
            header = mac.read_data(body, check_size)
        except LeftOut as why:
            self.left_out.add(str(why), packet.number)
            return None
        return Frame(
            packet.number, packet.time, header.pan, header.to, header.source, header.payload, try_nwk(header.payload)
        )
