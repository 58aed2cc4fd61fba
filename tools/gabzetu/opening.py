"""Opens the frames of a capture: runs `tc inspect` in parts, with the keys and addresses that earlier runs found."""
import collections
import itertools
from typing import Any, Dict, Iterator, List, Optional, Tuple

from .errors import Stop
from .formats.addresses import Addresses
from .formats.fields import LAYERS, read_report_line
from .program import run_tc

MOST_FRAMES, MOST_KEYS, MOST_NETWORK_KEYS, MOST_CLOSED = 100000, 256, 64, 1000000
FEW = 1000
WELL_KNOWN = '5A6967426565416C6C69616E63653039'
CLOSED = ('no-key', 'no-source')

# number, time: of the packet; pan, to, source: of its MAC header; payload: the bytes of the NWK frame; nwk: its
# header, or none where they have none of version 2
Frame = collections.namedtuple('Frame', 'number time pan to source payload nwk')

# A layer as tc reports it. kind: nwk, aps or inner; key: which opened it, or none; reason: why it didn't open, or none
Layer = collections.namedtuple('Layer', 'kind key label source counter content reason')

# number: from 1; origin: words for people; packet: in which it was found, or none; by: the key that opened that one,
# or none
Key = collections.namedtuple('Key', 'number key origin packet by')


def is_closed(layers: tuple) -> bool:
    """Returns whether another key or address might open a further layer."""
    return not layers or any(it.reason in CLOSED for it in layers)


def opened_layers(layers: tuple) -> int:
    """Returns how many layers of a frame a key opened."""
    return sum(it.key is not None for it in layers)


def how_open(layers: tuple) -> Tuple[int, bool]:
    """Returns what grows as more of a frame opens."""
    return opened_layers(layers), not is_closed(layers)


def still_closed(frames: List[Frame], layers: Dict[int, tuple]) -> List[Frame]:
    """Returns the frames of which another key or address might open more."""
    return [frame for frame in frames if is_closed(layers[frame.number])]


def parts_of(items: list, size: int) -> List[list]:
    """Returns a list in parts of a size."""
    return [items[at : at + size] for at in range(0, len(items), size)]


def groups_of(frames: List[Frame], pans: dict) -> List[tuple]:
    """Returns the frames of each of some PANs, and those of all others together, in parts that one run takes."""
    groups = collections.defaultdict(list)
    for frame in frames:
        groups[frame.pan if frame.pan in pans else None].append(frame)
    return [(pan, part) for pan, group in groups.items() for part in parts_of(group, MOST_FRAMES)]


class Ring:
    """The keys that are known, in the order in which they came. The network keys are those that opened a NWK layer."""

    def __init__(self) -> None:
        self.keys, self.network = {}, set()

    def add(self, key: str, origin: str, packet: Optional[int] = None, by: Optional[str] = None) -> None:
        """Adds a key where it is new."""
        if key not in self.keys:
            self.keys[key] = Key(len(self.keys) + 1, key, origin, packet, by)

    def shares(self) -> List[List[str]]:
        """Returns lists of keys of which each is short enough for one run. Network keys are in each."""
        if len(self.keys) <= MOST_KEYS:
            return [list(self.keys)]
        network = [key for key in self.keys if key in self.network][-MOST_NETWORK_KEYS:]
        others = [key for key in self.keys if key not in network]
        return [network + share for share in parts_of(others, MOST_KEYS - len(network))]


def text_capture(keys: List[str], table: Dict[str, str], frames: List[Frame]) -> bytes:
    """Returns the bytes of a text capture: keys, addresses and frames."""
    lines = [f'key {key}' for key in keys]
    lines += [f'addr {short} {eui}' for short, eui in table.items()]
    lines += [f'frame {frame.payload.hex().upper()}' for frame in frames]
    return ('\n'.join(lines) + '\n').encode('ascii')


def inspect(keys: List[str], table: Dict[str, str], frames: List[Frame], jobs: int) -> List[dict]:
    """Returns the fields of the lines of the report on some frames."""
    ran = run_tc(['inspect', str(jobs)], text_capture(keys, table, frames))
    if ran.status:
        words = ran.output.decode('ascii', 'replace').strip()
        raise Stop(f'tc inspect ended with status {ran.status} on the frames of the capture: {words}', ran.status)
    return [read_report_line(line.split(' ')) for line in ran.output.decode('ascii').splitlines()]


def layer_of(fields: dict, keys: Dict[int, str]) -> Layer:
    """Returns the layer of a line of a report. `keys` has the keys by their numbers in it."""
    get = fields.get
    return Layer(
        fields['kind'], keys.get(get('k')), get('label'), get('source'), get('counter'), get('content'), get('reason')
    )


def layers_of(lines: List[dict], count: int) -> Iterator[tuple]:
    """Returns the layers of each frame of a report, by the fields of its lines."""
    keys = {it['k']: it['key'] for it in lines if it['kind'] == 'key'}
    seen = [[] for _ in range(count)]
    for fields in (it for it in lines if it['kind'] in LAYERS):
        seen[fields['frame'] - 1].append(layer_of(fields, keys))
    return map(tuple, seen)


class Opener:
    """Opens frames part by part. `jobs` is how many jobs tc may use."""

    def __init__(self, ring: Ring, jobs: int = 1) -> None:
        self.ring, self.addresses, self.jobs = ring, Addresses(), jobs
        self.closed: Any = collections.OrderedDict()
        self.tried: Optional[Tuple[int, int]] = None

    def known(self) -> Tuple[int, int]:
        """Returns how many keys and addresses are known."""
        return len(self.ring.keys), self.addresses.count

    def open_part(self, frames: List[Frame]) -> List[Tuple[Frame, tuple]]:
        """Returns each frame of a part with its layers. Frames that stay closed are kept for open_again."""
        self.addresses.learn_from_headers(frames)
        layers = self.open_all(frames, {})
        opened = [(frame, layers[frame.number]) for frame in frames]
        self.closed.update((frame.number, (frame, now)) for frame, now in opened if is_closed(now))
        for number in list(itertools.islice(self.closed, max(0, len(self.closed) - MOST_CLOSED))):
            del self.closed[number]
        return opened

    def open_again(self) -> List[Tuple[Frame, tuple]]:
        """Returns the frames of earlier parts of which more opens with what was found since, with their layers."""
        if self.tried == self.known():
            return []
        before = {number: layers for number, (_, layers) in self.closed.items()}
        frames = [frame for frame, _ in self.closed.values()]
        layers = self.open_all(frames, dict(before))
        self.tried = self.known()
        better = [(frame, layers[frame.number]) for frame in frames if layers[frame.number] != before[frame.number]]
        for frame, now in better:
            self.closed[frame.number] = (frame, now)
            if not is_closed(now):
                del self.closed[frame.number]
        return better

    def open_all(self, frames: List[Frame], layers: Dict[int, tuple]) -> Dict[int, tuple]:
        """Opens frames until no run finds a key or an address. `layers` has what earlier runs opened, and is
        returned."""
        before = None
        while frames and before != self.known():
            before = self.known()
            self.open_once(frames, layers)
            frames = still_closed(frames, layers)
        return layers

    def open_once(self, frames: List[Frame], layers: Dict[int, tuple]) -> None:
        """Opens frames with what is known now. Each PAN whose addresses are known has runs of its own."""
        for pan, group in groups_of(frames, self.addresses.pans):
            self.open_group(pan, group, layers)

    def open_group(self, pan: Optional[str], frames: List[Frame], layers: Dict[int, tuple]) -> None:
        """Opens the frames of a PAN by each share of the keys, and each table of its addresses."""
        for keys, table in itertools.product(self.ring.shares(), self.addresses.tables(pan)):
            self.run(keys, table, frames, layers)
            frames = still_closed(frames, layers)
            if not frames:
                break

    def run(self, keys: List[str], table: Dict[str, str], frames: List[Frame], layers: Dict[int, tuple]) -> None:
        """Runs tc once, and takes what is better than before."""
        lines = inspect(keys, table, frames, self.jobs if len(frames) > FEW else 1)
        for frame, now in zip(frames, layers_of(lines, len(frames))):
            self.take(frame, now, layers)
        self.add_found([(it['key'], frames[it['frame'] - 1]) for it in lines if it.get('origin') == 'found'], layers)

    def take(self, frame: Frame, now: tuple, layers: Dict[int, tuple]) -> None:
        """Takes the layers of a frame where more of them open than before, and learns from them."""
        before = layers.get(frame.number)
        if before is not None and how_open(before) >= how_open(now):
            return
        layers[frame.number] = now
        self.ring.network.update(it.key for it in now if it.kind == 'nwk' and it.key)
        self.addresses.learn_from_layers(frame, now)

    def add_found(self, found: List[Tuple[str, Frame]], layers: Dict[int, tuple]) -> None:
        """Adds keys that were found, each with the frame that carries it."""
        for key, frame in found:
            by = [it.key for it in layers[frame.number] if it.key]
            self.ring.add(key, f'found in packet {frame.number}', frame.number, by[-1] if by else None)
