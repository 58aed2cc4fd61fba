"""gabzetu wireshark: hands to Wireshark what tc found, and packets that it reads without settings."""
import argparse
import struct
from typing import Dict, List, Tuple

from ..capture import Capture
from ..errors import UNREADABLE, WRONG_USE, Stop, reason_of
from ..formats import pcap, transcripts
from ..formats.checks import MODES
from ..formats.keyfiles import read_key_file
from ..formats.numbers import read_number
from ..output import keep_inputs, open_output, say, write_output

SUMMARY = 'write keys and packets for Wireshark'
DESCRIPTION = '''Hands to Wireshark what tc found.

  gabzetu wireshark keys FILE [OUT]         the keys of FILE as lines of Wireshark's file zigbee_pc_keys. FILE is what
                                            `open`, `inspect` or `sniff` wrote, a transcript, or a backup
  gabzetu wireshark frames TRANSCRIPT OUT   the frames of a transcript as a pcap of link type 230. Frame N is packet N,
                                            and the seconds of its time are its event
  gabzetu wireshark packets CAPTURE OUT     the packets of a sniffer's capture as a pcap of link type 230, for `sniff`
                                            too. Packet N is packet N of CAPTURE. It is empty where that one isn't
                                            whole or is none of IEEE 802.15.4'''

BROADCASTS, NETWORK = (0xFFFC, 0xFFFD, 0xFFFF), 0x1A62


def add_arguments(parser: argparse.ArgumentParser) -> None:
    """Adds the words of the command."""
    parser.add_argument('kind', choices=list(KINDS), help='what is written')
    parser.add_argument('file', metavar='FILE', help='the file to read, or - for standard input')
    parser.add_argument('out', metavar='OUT', nargs='?', help='the file to write, or - for standard output')
    parser.add_argument(
        '--capture',
        metavar='PCAP',
        help='of keys: the capture that `sniff` read, so that they get the numbers of its packets',
    )
    parser.add_argument('--fcs', choices=MODES, default='auto', help='of packets: as for `open`')
    parser.add_argument('--zep-port', metavar='PORT', type=int, help='of packets: as for `open`')


def run(arguments: argparse.Namespace) -> int:
    """Runs the command, and returns the exit status."""
    if arguments.out is None and arguments.kind != 'keys':
        raise Stop(
            f'wireshark {arguments.kind} takes the name of the file to write, or - for standard output', WRONG_USE
        )
    keep_inputs([arguments.file, arguments.capture], [arguments.out])
    return KINDS[arguments.kind](arguments)


def label_of(words: str) -> str:
    """Returns a text that can stand in quotes in a line of zigbee_pc_keys."""
    return 'tc: ' + ''.join(it for it in words if it not in '"\\')


def packet_numbers(path: str) -> List[int]:
    """Returns the packets of the frames of a capture, in order."""
    return [frame.number for frames in Capture(path).parts() for frame in frames]


def with_packet(label: str, numbers: List[int]) -> str:
    """Returns a label of a report with the packet's number in place of the frame's."""
    head, is_found, frame = label.partition(', found in frame ')
    if not is_found:
        return label
    place = read_number(frame)
    if place is None or not 1 <= place <= len(numbers):
        raise Stop(
            f'the capture has {len(numbers)} frames, and a key was found in frame {frame[:20]}: '
            'the report is of another one'
        )
    return f'{head}, found in packet {numbers[place - 1]}'


def write_keys(arguments: argparse.Namespace) -> int:
    """Writes the keys of a report or backup as lines of zigbee_pc_keys."""
    labels = read_key_file(arguments.file)
    if arguments.capture:
        numbers = packet_numbers(arguments.capture)
        labels = {key: with_packet(label, numbers) for key, label in labels.items()}
    lines = ''.join(f'"{key}","Normal","{label_of(label)}"\n' for key, label in labels.items())
    write_output(arguments.out, lines, is_private=True)
    return 0


def mac_header(frame: transcripts.Frame, nodes: Dict[str, transcripts.Node]) -> bytes:
    """Returns the header of a data packet between short addresses; it asks for an acknowledgement unless it is for
    all."""
    to, source = struct.unpack('<HH', frame.data[2:6].ljust(4, b'\0'))
    sender = int(nodes[frame.sender].short, 16) if frame.sender in nodes else source
    is_broadcast = to in BROADCASTS
    return struct.pack(
        '<HBHHH',
        0x8841 if is_broadcast else 0x8861,
        frame.number & 255,
        NETWORK,
        0xFFFF if is_broadcast else to,
        sender,
    )


def read_transcript(path: str) -> Tuple[Dict[str, transcripts.Node], List[transcripts.Frame]]:
    """Returns the nodes by name and the frames of a transcript."""
    try:
        events, _ = transcripts.read_events(path)
        return {node.name: node for node in transcripts.read_nodes(events)}, transcripts.read_frames(events)
    except OSError as error:
        raise Stop(f'{path}: cannot be read: {reason_of(error)}', UNREADABLE) from error
    except transcripts.NoTranscript as why:
        raise Stop(str(why), UNREADABLE) from why
    except (LookupError, ValueError) as error:
        raise Stop(f'{path}: this is no transcript', UNREADABLE) from error


def write_frames(arguments: argparse.Namespace) -> int:
    """Writes the frames of a transcript as a pcap."""
    nodes, frames = read_transcript(arguments.file)
    if not frames:
        raise Stop(f'{arguments.file}: no frames are in it', UNREADABLE)
    write_output(
        arguments.out,
        pcap.HEADER + b''.join(pcap.record(it.event, 0, mac_header(it, nodes) + it.data) for it in frames),
    )
    return 0


def write_packets(arguments: argparse.Namespace) -> int:
    """Writes the packets of a capture as a pcap of link type 230."""
    capture, written, misplaced = Capture(arguments.file, arguments.fcs, arguments.zep_port), 0, 0
    with open_output(arguments.out) as file:
        file.write(pcap.HEADER)
        for bodies in capture.bodies():
            written += sum(bool(body) for _, body in bodies)
            misplaced += sum(not pcap.is_in_range(time) for time, _ in bodies)
            file.write(b''.join(pcap.record_at(time, body) for time, body in bodies))
        if not written:
            raise Stop(f'{arguments.file}: no packet of IEEE 802.15.4 is in it', UNREADABLE)
    said = [
        f'{count} left empty: {reason} (the first is packet {first})'
        for reason, count, first in capture.left_out.rows()
    ]
    if misplaced:
        said.append(f'{misplaced} have a time before 1970 or after 2106, which a pcap cannot hold: it is moved there')
    say('\n'.join(f'gabzetu: {it}' for it in [f'{written} of {capture.packets} packets written', *said]))
    return 0


KINDS = {'keys': write_keys, 'frames': write_frames, 'packets': write_packets}
