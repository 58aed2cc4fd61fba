"""Loss of power: every image that the disk's model allows, after each call of a script, must be old or new."""
import hashlib
import itertools
import random

from files_tries.cases import all_cases
from files_tries.bench import read
from files_tries.scripts import acknowledged

GATE = 0xA5
# Images that are listed by one process and its forks.
BATCH = 200


class Disk:
    """What may be on the disk of a file: its bytes now, those of the last sync, and the ranges written since."""

    def __init__(self, content):
        self.now = bytearray(content or b"")
        self.synced = bytes(self.now)
        self.ranges = []
        # The file's name may be missing on the disk as long as its folder isn't synced.
        self.is_named = content is not None

    def write(self, place, given):
        end = place + len(given)
        self.now.extend(bytes(max(0, end - len(self.now))))
        self.now[place:end] = given
        self.ranges.append((place, len(given)))

    def sync(self):
        self.synced, self.ranges = bytes(self.now), []

    def old(self, place, size):
        """Returns the synced bytes of a range; those past the end are 00."""
        return self.synced[place : place + size].ljust(size, b"\0")

    def image(self, fills):
        """Returns the bytes with each of these ranges filled: place and bytes."""
        found = bytearray(self.now)
        for place, given in fills:
            found[place : place + len(given)] = given
        return bytes(found)

    def old_image(self):
        return self.synced.ljust(len(self.now), b"\0")

    def named_images(self, dice):
        """Yields now, what was synced, and each unsynced range old, new, torn at each byte, of 00 and at random."""
        yield bytes(self.now)
        yield self.synced
        for place, size in self.ranges:
            for given in variants(bytes(self.now[place : place + size]), self.old(place, size), dice):
                yield self.image([(place, given)])
                yield self.old_image()[:place] + given + self.old_image()[place + size :]

    def random_image(self, dice):
        """Returns an image in which each unsynced range is chosen by itself, sometimes with the old length."""
        fills = []
        for place, size in self.ranges:
            fills.append((place, chosen(bytes(self.now[place : place + size]), self.old(place, size), dice)))
        image = self.image(fills)
        return image[: len(self.synced)] if self.synced and dice.random() < 0.1 else image


def noise(size, dice):
    """Returns random bytes."""
    return dice.getrandbits(8 * size).to_bytes(size, "big")


def variants(new, old, dice):
    """Yields what a range may hold: a gate each of its values, a longer one torn at each byte, 00 and random bytes."""
    if len(new) == 1:
        yield from (bytes([value]) for value in range(256))
        return
    yield from (new, old, bytes(len(new)), noise(len(new), dice), noise(len(new), dice))
    if new != old:
        for place in range(1, len(new)):
            yield new[:place] + old[place:]
            yield old[:place] + new[place:]


def chosen(new, old, dice):
    """Returns old, new, torn, random bytes or one of these with gates and lengths that look right."""
    size = len(new)
    place = dice.randrange(size)
    torn = (new[:place] + old[place:], old[:place] + new[place:])
    found = bytearray(dice.choice((new, old, bytes(size), noise(size, dice), *torn)))
    for _ in range(dice.choice((0, 0, 1, 3))):
        found[dice.randrange(size)] = dice.choice((GATE, 0, 1, 0xFF, dice.randrange(256)))
    return bytes(found)


def record(case):
    """Runs the script of a case, and returns its writes and syncs of the store and its lines, in order."""
    store, events, names = case.put(), [], {}
    for call in case.bench.calls(store, case.commands):
        if call.name == "open" and call.result >= 0:
            names[call.result] = call.given.decode()
        elif call.name == "write" and call.file == 1:
            events.append(("lines", call.given.decode("latin1"), None))
        elif call.name == "write" and names.get(call.file) == store:
            events.append(("write", call.place, call.given))
        elif call.name == "fsync" and call.result == 0:
            events.append(("sync" if names.get(call.file) == store else "folder", None, None))
    check_record(case, store, events)
    return events


def check_record(case, store, events):
    """Checks that what was recorded makes the store, and that no write after a file was made needs more room."""
    disk, is_made = Disk(case.content), case.content is not None
    for kind, place, given in events:
        if kind == "write":
            if is_made and place + len(given) > len(disk.now):
                case.bench.found(f"power: {case.name}: a write at {place} needs room that a full disk may not have")
            disk.write(place, given)
        is_made = is_made or kind == "sync"
    if bytes(disk.now) != read(store):
        raise SystemExit("files: the library misses calls that change the store")


def moments(case):
    """Yields the disk and the output after each write and sync of a case's script."""
    disk, output = Disk(case.content), ""
    for kind, place, given in record(case):
        if kind == "lines":
            output += place
        elif kind == "write":
            disk.write(place, given)
        elif kind == "sync":
            disk.sync()
        else:
            disk.is_named = True
        yield disk, output


class Tries:
    """The images that were listed, each once for each number of acknowledged commands, and what they showed."""

    def __init__(self, bench):
        self.bench, self.marks, self.named = bench, set(), 0
        self.ends = {"old": 0, "new": 0, "no store or an empty one": 0}

    def is_new(self, case, output, image):
        """Returns whether an image, or no file, wasn't listed yet after the same commands, and notes it."""
        mark = (case.name, acknowledged(output), hashlib.sha1(image).digest() if image is not None else None)
        is_new = mark not in self.marks
        self.marks.add(mark)
        return is_new

    def look(self, batch):
        """Lists a batch of images, and checks what they show."""
        for (case, output, image), shown in zip(batch, self.bench.shown_of_each([image for _, _, image in batch])):
            self.count_end(case, output, shown)
            why = case.judge(output, shown)
            if why:
                self.bench.found(f"power: {case.name}: {why}", self.bench.put("image", image), ["list", "backup"])

    def count_end(self, case, output, shown):
        told = acknowledged(output)
        if case.is_in_first(told) and shown != case.states[1]:
            self.ends["no store or an empty one"] += 1
        else:
            self.ends["old" if shown == case.states[told] else "new"] += 1


def images_of(case, dice):
    """Yields each output with the named images of its moment, and no file if its name may not be on the disk."""
    for disk, output in moments(case):
        if not disk.is_named:
            yield output, None
        for image in disk.named_images(dice):
            yield output, image


def random_images_of(case, dice):
    """Yields a random image of each moment at which something isn't synced, without end."""
    while True:
        for disk, output in moments(case):
            if disk.ranges:
                yield output, disk.random_image(dice)


def with_case(case, images):
    for output, image in images:
        yield case, output, image


def in_turn(cases, make, dice):
    """Yields the images of the cases in turn, each with its case."""
    rows = [with_case(case, make(case, dice)) for case in cases]
    for row in itertools.zip_longest(*rows):
        yield from (it for it in row if it)


def different(tries, cases, dice):
    """Yields different images: each named one, and then random ones without end."""
    for it in in_turn(cases, images_of, dice):
        if tries.is_new(*it):
            tries.named += 1
            yield it
    for it in in_turn(cases, random_images_of, dice):
        if tries.is_new(*it):
            yield it


def batches(images, size):
    """Yields the images in lists of a size."""
    return iter(lambda: list(itertools.islice(images, size)), [])


def power(bench, count, seed):
    """Tests COUNT different images, the named ones first, and returns the line of counts."""
    dice, tries = random.Random(seed), Tries(bench)
    images = bench.each("power", different(tries, all_cases(bench), dice), count)
    for batch in batches(images, BATCH):
        tries.look(batch)
    ends = ", ".join(f"{number} {end}" for end, number in tries.ends.items())
    return f"{count} images, {min(count, tries.named)} of them by name and the others at random: {ends}"
