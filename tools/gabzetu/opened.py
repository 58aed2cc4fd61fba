"""A capture of a sniffer that was opened whole: its frames, what tc opened of them, and the keys."""
import json
from typing import Dict, List, NamedTuple, Optional

from . import listing
from .capture import Capture
from .errors import UNREADABLE, Stop
from .formats.packets import MAGICS
from .formats.reports import Heard, Report
from .formats.sources import GZIP
from .opening import MOST_FRAMES, Key, Layer, Opener, Ring
from .runs import default_jobs


def is_capture(path: str) -> bool:
    """Returns whether a file begins as a capture of a sniffer does. Standard input is taken to be none."""
    try:
        with open(path, 'rb') as file:
            first = file.read(8)
    except OSError:
        return False
    return first.startswith((*MAGICS, GZIP))


class Opened(NamedTuple):
    """The frames of a capture with their layers, in the order of their packets."""

    capture: Capture
    opener: Opener
    frames: List[tuple]

    def heard(self) -> List[Heard]:
        """Returns what the capture shows of each frame."""
        return [Heard(frame.number, frame.time, frame.pan, frame.payload) for frame, _ in self.frames]

    def report(self) -> Report:
        """Returns the report on the frames, which are numbered from 1, as a page takes it."""
        ring = self.opener.ring
        places = {frame.number: place for place, (frame, _) in enumerate(self.frames, 1)}
        layers = {
            place: [fields_of(place, it, ring) for it in found]
            for place, (_, found) in enumerate(self.frames, 1)
            if found
        }
        keys = [fields_of_key(it, places) for it in ring.keys.values()]
        end = {'kind': 'end', 'frames': len(self.frames), 'keys': len(keys), 'rounds': 1}
        return Report('', layers, keys, end)

    def text(self) -> str:
        """Returns the JSON lines that `gabzetu open --json` has of the frames."""
        ring = self.opener.ring
        return ''.join(json.dumps(listing.object_of(frame, found, ring)) + '\n' for frame, found in self.frames)


def fields_of(place: int, layer: Layer, ring: Ring) -> dict:
    """Returns the fields of a layer as a report has them."""
    head = {'frame': place, 'kind': layer.kind}
    if layer.key is None:
        return {**head, 'reason': layer.reason}
    label = {} if layer.label is None else {'label': layer.label}
    number = ring.keys[layer.key].number
    return {**head, 'k': number, **label, 'source': layer.source, 'counter': layer.counter, 'content': layer.content}


def fields_of_key(key: Key, places: Dict[int, int]) -> dict:
    """Returns the fields of a key as a report has them."""
    place: Optional[int] = places.get(key.packet) if key.packet else None
    head = {'kind': 'key', 'k': key.number, 'key': key.key}
    return {**head, 'origin': 'given'} if place is None else {**head, 'origin': 'found', 'frame': place, 'round': 1}


def open_capture(path: str, ring: Ring, checks: str = 'auto', zep_port: Optional[int] = None) -> Opened:
    """Opens all frames of a capture with the keys of a ring and those that are found."""
    capture = Capture(path, checks, zep_port)
    opener = Opener(ring, default_jobs())
    found: Dict[int, tuple] = {}
    for frames in capture.parts():
        opener.addresses.learn_all(capture.take_associations())
        found.update((frame.number, (frame, layers)) for frame, layers in opener.open_part(frames))
        if len(found) > MOST_FRAMES:
            raise Stop(f'{path}: it has more than {MOST_FRAMES} frames: cut it first (editcap -c)', UNREADABLE)
    found.update((frame.number, (frame, layers)) for frame, layers in opener.open_again())
    return Opened(capture, opener, [found[number] for number in sorted(found)])
