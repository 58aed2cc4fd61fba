"""gabzetu open: the frames of a sniffer's capture, packet by packet."""
import argparse
import contextlib
import json
from typing import Any, Iterator, List, Optional, Sequence, Union

from .. import listing
from ..capture import Capture
from ..errors import WRONG_USE, Stop
from ..formats.checks import MODES
from ..formats.contents import describe
from ..formats.keyfiles import normal_key, printable, read_key_file
from ..formats.words import counted
from ..opening import MOST_FRAMES, WELL_KNOWN, Opener, Ring
from ..output import is_watched, keep_inputs, open_output, say
from ..program import run_tc
from ..runs import default_jobs

ENDINGS = {
    'crc': 'a check sequence',
    'ti': "a TI chip's words",
    'ignore': 'two bytes that are no check sequence',
    'none': 'no check sequence',
}

SUMMARY = "open a sniffer's capture with the keys that you know and those found in it"
DESCRIPTION = '''Opens a sniffer's capture with the keys that you know, the well-known key, and the keys that are
found on the way.

CAPTURE is a pcap, pcapng or Daintree file, also one packed by gzip, or - for a pipe: tcpdump -w - | gabzetu open
--follow - Its packets may have any link type with IEEE 802.15.4: 195, 230, 283 (TAP), 215, 147, or ZEP in UDP on
Ethernet, Linux cooked, loopback or raw IP.

A line for each frame: the number of its packet in the file, PAN, source and destination, what opened each layer, and
what it carries. The end says which keys there are, and why the rest stayed closed. Whether a frame opens is what `tc
inspect` says. --from, --to, --pan, --type and --failed choose the lines; the end counts all frames.'''


def add_arguments(parser: argparse.ArgumentParser) -> None:
    """Adds the words of the command."""
    parser.add_argument('capture', metavar='CAPTURE', help='a capture file, or - for standard input')
    add_keys(parser)
    add_reading(parser)
    add_filter(parser)
    parser.add_argument(
        '--follow', action='store_true', help='go on as the file or pipe grows, until it ends or you press Ctrl-C'
    )
    parser.add_argument('--times', action='store_true', help='show the seconds since the first packet in each line')
    parser.add_argument(
        '--to-capture', metavar='OUT', help='write keys, addresses and frames as a text capture, for inspect'
    )
    parser.add_argument(
        '--json', action='store_true', help='write JSON lines: an object for each frame, key and reason'
    )


def add_filter(parser: argparse.ArgumentParser) -> None:
    """Adds the words that say which frames are shown."""
    parser.add_argument('--from', dest='source', metavar='SHORT', help='show frames of this short address')
    parser.add_argument('--to', metavar='SHORT', help='show frames to this short address')
    parser.add_argument('--pan', metavar='PAN', help='show frames of this PAN')
    parser.add_argument('--type', metavar='WORD', help='show frames whose line has this word, for example transport')
    parser.add_argument('--failed', action='store_true', help='show frames of which a layer stayed closed')


def add_reading(parser: argparse.ArgumentParser) -> None:
    """Adds the words that say how the packets of a capture are read."""
    parser.add_argument(
        '--fcs',
        choices=MODES,
        default='auto',
        help='what the last two bytes of each packet are: a check sequence (crc), '
        "a TI chip's words (ti), part of the packet (none), or anything else (ignore); auto finds out",
    )
    parser.add_argument(
        '--zep-port',
        metavar='PORT',
        type=int,
        help='the only UDP port of ZEP packets; without it, 17754 and what looks like ZEP on any other port',
    )


def add_keys(parser: argparse.ArgumentParser) -> None:
    """Adds the words that say which keys are known."""
    parser.add_argument('--code', metavar='C', action='append', default=[], help='an install code, its CRC included')
    parser.add_argument('--key', metavar='K', action='append', default=[], help='a key of 32 digits')
    parser.add_argument(
        '--keys-from',
        metavar='FILE',
        action='append',
        default=[],
        help='a coordinator backup, zigbee.db, configuration.yaml, zigbee_pc_keys, a report or a transcript',
    )


def link_key_of(code: str) -> str:
    """Returns the link key of an install code, which tc says."""
    ran = run_tc(['install', code])
    if ran.status:
        raise Stop(
            f'--code {code}: no install code: {ran.output.decode("ascii", "replace").strip()} '
            '(gabzetu install says more)',
            WRONG_USE,
        )
    return ran.output.decode('ascii').strip()


def read_key(text: str) -> str:
    """Returns the key of a word."""
    if not normal_key(text):
        raise Stop(f'--key {text}: a key has 32 hexadecimal digits', WRONG_USE)
    return normal_key(text)


def read_ring(arguments: argparse.Namespace) -> Ring:
    """Returns the ring of the keys that the words give, and the well-known key behind them."""
    given = [(link_key_of(code), f'given, of code {code}') for code in arguments.code]
    given += [(read_key(text), 'given') for text in arguments.key]
    given += [
        (key, printable(f'{path}: {label}'))
        for path in arguments.keys_from
        for key, label in read_key_file(path).items()
    ]
    ring = Ring()
    for key, origin in [*given, (WELL_KNOWN, 'the well-known key')]:
        ring.add(key, origin)
    return ring


class TextCapture:
    """Writes a text capture as the frames come: the keys first, the addresses last."""

    def __init__(self, file: Any, ring: Ring) -> None:
        self.file, self.frames = file, 0
        self.put(f'key {key}' for key in ring.keys)

    def put(self, lines: Union[Iterator[Any], List[str]]) -> None:
        """Writes lines."""
        self.file.write(''.join(f'{line}\n' for line in lines).encode('ascii'))

    def add(self, frames: list) -> None:
        """Writes frames, each behind a comment with the number of its packet."""
        self.frames += len(frames)
        self.put(f'# packet {frame.number}\nframe {frame.payload.hex().upper()}' for frame in frames)

    def finish(self, addresses: Any) -> None:
        """Writes the addresses. A text capture has one EUI for a short address, so that further ones are comments."""
        taken = set()
        for short, eui in addresses.pairs():
            self.put([f'{"# " if short in taken else ""}addr {short} {eui}'])
            taken.add(short)
        if self.frames > MOST_FRAMES:
            say(f'gabzetu: the text capture has {self.frames} frames, and inspect takes {MOST_FRAMES}')


def show(
    frames: Sequence[tuple], shown: listing.Listing, arguments: argparse.Namespace, is_again: bool = False
) -> None:
    """Prints frames with their layers."""
    ring = shown.opener.ring
    for frame, layers in frames:
        shown.note(frame, layers)
        if not passes(frame, layers, arguments):
            continue
        if arguments.json:
            line = json.dumps(listing.object_of(frame, layers, ring, is_again))
        else:
            since = shown.since(frame) if arguments.times else ''
            line = since + listing.line_of(frame, layers, ring, is_again)
        print(line, flush=arguments.follow)


def is_address(given: Optional[str], found: Optional[str]) -> bool:
    """Returns whether an address is the one that was asked for, or none was."""
    return given is None or (found or '').upper() == given.upper()


def passes(frame: Any, layers: tuple, arguments: argparse.Namespace) -> bool:
    """Returns whether a frame passes the filter."""
    source, to = listing.addresses_of(frame)
    return (
        is_address(arguments.source, source)
        and is_address(arguments.to, to)
        and is_address(arguments.pan, frame.pan)
        and (arguments.type is None or arguments.type.lower() in describe(frame, layers).lower())
        and (not arguments.failed or listing.category_of(layers) in ('closed', 'partly'))
    )


def show_all(
    capture: Capture,
    opener: Opener,
    shown: listing.Listing,
    arguments: argparse.Namespace,
    text: Optional[TextCapture],
) -> None:
    """Prints the frames part by part; those of which more opens later are printed once more."""
    for frames in capture.parts():
        opener.addresses.learn_all(capture.take_associations())
        if text:
            text.add(frames)
        show(opener.open_part(frames), shown, arguments)
        if arguments.follow:
            show(opener.open_again(), shown, arguments, is_again=True)
        elif is_watched() and capture.packets >= MOST_FRAMES:
            say(f'gabzetu: {capture.packets} packets')
    show(opener.open_again(), shown, arguments, is_again=True)


def finish(shown: listing.Listing, arguments: argparse.Namespace) -> None:
    """Prints the end."""
    print('\n'.join(map(json.dumps, shown.objects()) if arguments.json else shown.lines()))
    for kind, said, how in shown.capture.checks.surprises():
        say(
            f'gabzetu: packets of {kind} should end with {ENDINGS[said]}. '
            f'These end with {ENDINGS[how]}, and are read so (see --fcs)'
        )
    links = shown.capture.links
    for port, count in [] if links.zep_port else links.other_ports.most_common():
        say(
            f'gabzetu: {counted(count, "packet")} to UDP port {port} begin with a ZEP header, and are read as ZEP '
            '(see --zep-port)'
        )


def run(arguments: argparse.Namespace) -> int:
    """Runs the command, and returns the exit status."""
    keep_inputs([arguments.capture, *arguments.keys_from], [arguments.to_capture])
    ring = read_ring(arguments)
    capture = Capture(arguments.capture, arguments.fcs, arguments.zep_port, arguments.follow)
    opener = Opener(ring, default_jobs())
    shown = listing.Listing(capture, opener)
    out = arguments.to_capture
    with open_output(out, is_private=True) if out else contextlib.nullcontext() as file:
        text = TextCapture(file, ring) if file else None
        try:
            show_all(capture, opener, shown, arguments, text)
        except KeyboardInterrupt:
            if not arguments.follow:
                raise
        if text:
            text.finish(opener.addresses)
    finish(shown, arguments)
    return 0
