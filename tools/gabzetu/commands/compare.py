"""gabzetu compare: holds what tc opens of a transcript's frames against what tshark opens."""
import argparse
import os
import re
import shutil
import subprocess
import tempfile
from typing import Dict, List, Tuple

from ..errors import MISSING, UNREADABLE, WRONG_USE, Stop
from ..formats import diagnosis, pcap, transcripts
from ..formats.made import made
from ..output import read_input
from ..program import run_tc

SUMMARY = 'compare what tc and tshark open of the frames of a transcript'
DESCRIPTION = '''Compares what `tc sniff` and tshark open of the frames of a transcript, or of each run of a campaign.

They are wrapped into a capture file, and both get the keys of the `given` lines. Compared are, frame by frame and
from the NWK layer inwards, the layers that were opened: the kind of key, the key, the source, the counter and every
byte of the content that tshark decrypted; and whether a further secured layer stays closed. After that the keys that
tc found: they are those that tshark reads in opened Transport-Key commands, and each is in the frame where it was
found. tshark learns keys from earlier frames only, and an empty content counts as closed, since it passes over these.

The status is 0 where all frames agree and some are opened, 1 where not, and another where nothing could be
compared.'''

KINDS = {0: 'data', 1: 'network', 2: 'transport', 3: 'load'}
FIELDS = ['frame.number', 'zbee.sec.key_id', 'zbee.sec.key', 'zbee.sec.src64', 'zbee.sec.counter', 'zbee_aps.cmd.key']
LINE_OF_BYTES = '(?m)^[0-9a-f]{4,8}  ((?:[0-9a-f]{2} ){1,16})'
NETWORK = b'\x62\x1a'


def add_arguments(parser: argparse.ArgumentParser) -> None:
    """Adds the words of the command."""
    parser.add_argument('transcript', metavar='TRANSCRIPT', nargs='?', help='a transcript, or - for standard input')
    parser.add_argument(
        '--made', nargs=2, metavar=('COUNT', 'START'), type=int, help='compare the runs of `campaign COUNT START`'
    )


def run(arguments: argparse.Namespace) -> int:
    """Runs the command, and returns the exit status."""
    if (arguments.transcript is None) == (arguments.made is None):
        raise Stop('compare takes a transcript, or --made COUNT START', WRONG_USE)
    if not shutil.which('tshark'):
        raise Stop('tshark is missing (Debian: apt install tshark)', MISSING)
    try:
        return compare_made(*arguments.made) if arguments.made else compare_transcript(arguments.transcript)
    except (LookupError, ValueError) as error:
        raise Stop(f'the transcript or an answer is not of the known form: {error!r}', UNREADABLE) from error


def frames_and_keys(text: str) -> Tuple[List[bytes], List[str]]:
    """Returns the frames of a transcript, and the keys that it gives nodes at the start."""
    lines = [words for words in map(str.split, text.splitlines()) if len(words) > 2]
    frames = [bytes.fromhex(words[-1]) for words in lines if words[1] in ('send', 'inject')]
    keys = [words[4] if words[3] == 'net' else words[5] for words in lines if words[1] == 'given']
    return frames, list(dict.fromkeys(keys))


def capture_file(frames: List[bytes]) -> bytes:
    """Returns a pcap: each frame in a data packet from and to the short addresses of its NWK header."""
    packets = [
        bytes([0x41, 0x88, number & 255]) + NETWORK + frame[2:6].ljust(4, b'\0') + frame
        for number, frame in enumerate(frames)
    ]
    return pcap.HEADER + b''.join(pcap.record(number, 0, packet) for number, packet in enumerate(packets))


def ask_tc(words: List[str], given: bytes) -> str:
    """Returns what tc writes, as text. Stops where it ends with another status than 0."""
    ran = run_tc(words, given)
    if ran.status:
        raise Stop(
            f'tc {words[0]} failed with status {ran.status}: {ran.output.decode("ascii", "replace").strip()}',
            ran.status,
        )
    return ran.output.decode('ascii')


def ask_tshark(words: List[str], file: str, folder: str) -> str:
    """Returns what tshark writes on a file. It finds no settings of the user, which may name further keys."""
    ran = subprocess.run(
        ['tshark', '-r', file, *words],
        capture_output=True,
        text=True,
        check=False,
        env={**os.environ, 'WIRESHARK_CONFIG_DIR': folder},
    )
    if ran.returncode:
        raise Stop(f'tshark failed with status {ran.returncode}: {(ran.stderr or ran.stdout).strip()}', MISSING)
    return ran.stdout


def layer_of_report(words: List[str], ring: Dict[int, str]) -> Tuple[str, str, str, int, str]:
    """Returns the layer of a line `I nwk key K SOURCE COUNTER CONTENT` or `I aps key K KIND SOURCE COUNTER
    CONTENT`."""
    kind = 'network' if words[1] == 'nwk' else words[4]
    return kind, ring[int(words[3])], words[-3], int(words[-2]), words[-1]


def answers_of_report(text: str, count: int) -> Tuple[Dict[int, tuple], Dict[str, int]]:
    """Returns for each frame its opened layers and whether one stays closed; and for each key found the frame that
    carries it."""
    lines = [line.split() for line in text.splitlines()]
    if [words[:2] for words in lines[-2:-1]] != [['end', str(count)]] or lines[-1] != [
        'packets',
        str(count),
        '0',
        '0',
    ]:
        raise Stop(f'the report is not on {count} frames of {count} packets, but ends: {lines[-2:]}', UNREADABLE)
    ring = {int(words[1]): words[2] for words in lines if words[0] == 'key'}
    found = {words[2]: int(words[4]) for words in lines if words[0] == 'key' and words[3] == 'found'}
    answers: Dict[int, tuple] = {}
    for words in (words for words in lines if words[0].isdigit()):
        layers, closed = answers.get(int(words[0]), ([], False))
        if words[2] == 'key' and words[-1] != '-':
            layers = layers + [layer_of_report(words, ring)]
        else:
            closed = closed or words[2] in ('key', 'no-key', 'no-source')
        answers[int(words[0])] = layers, closed
    return answers, found


def decrypted_contents(text: str) -> List[List[str]]:
    """Returns the contents that `tshark -x` shows as decrypted: for each frame, after which there is an empty line."""
    parts = [re.split('(?m)^Decrypted ZigBee Payload.*$', dump)[1:] for dump in text.split('\n\n')]
    return [[''.join(re.findall(LINE_OF_BYTES, it)).replace(' ', '').upper() for it in frame] for frame in parts]


def answers_of_tshark(table: str, dump: str) -> Dict[int, tuple]:
    """Returns the same as answers_of_report, but for each frame also the keys of its commands. Layers open from the
    outermost on."""
    answers: Dict[int, tuple] = {}
    contents = decrypted_contents(dump)
    for row in table.splitlines():
        number, kinds, *others = row.split('\t')
        keys, sources, counters, carried = (
            other.replace(':', '').upper().split(',') if other else [] for other in others
        )
        names = [KINDS.get(int(kind, 0)) for kind in kinds.split(',') if kind]
        layers = list(zip(names, keys, sources, map(int, counters), contents[int(number) - 1]))
        answers[int(number)] = layers, len(layers) < len(names), carried
    return answers


def compare_frames(
    count: int, ours: Dict[int, tuple], theirs: Dict[int, tuple]
) -> Tuple[int, int, int]:
    """Prints the frames that differ. Returns how many agree in what was opened, their layers, and how many neither
    opens."""
    same, opened, neither = 0, 0, 0
    for number in range(1, count + 1):
        layers, closed, _ = theirs.get(number, (None, None, None))
        if number not in ours or ours[number] != (layers, closed):
            print(f'frame {number}: tc {ours.get(number)}, tshark {(layers, closed)}')
        elif layers:
            same, opened = same + 1, opened + len(layers)
        else:
            neither += 1
    return same, opened, neither


def compare_keys(found: Dict[str, int], theirs: Dict[int, tuple], given: List[str]) -> int:
    """Prints the keys that differ, and returns how many there are."""
    carried = {number: keys if layers else [] for number, (layers, _, keys) in theirs.items()}
    shown = set().union(*carried.values()) - set(given)
    wrong = (shown ^ set(found)) | {key for key in found if key not in carried.get(found[key], [])}
    for key in sorted(wrong):
        print(
            f'key {key}: tc found it in frame {found.get(key)}, tshark in {[n for n in carried if key in carried[n]]}'
        )
    return len(wrong)


def compare_all(frames: List[bytes], keys: List[str]) -> Tuple[int, int, int, int, int]:
    """Compares what both make of frames under some keys, and prints what differs. Returns how many frames agree, in
    how many layers, how many neither opens, and how many keys were found and differ."""
    capture = capture_file(frames)
    ours, found = answers_of_report(ask_tc(['sniff', '1', *keys], capture), len(frames))
    with tempfile.TemporaryDirectory() as folder:
        file = os.path.join(folder, 'frames.pcap')
        with open(file, 'wb') as out:
            out.write(capture)
        settings = [word for key in keys for word in ('-o', f'uat:zigbee_pc_keys:"{key}","Normal","k"')]
        fields = ['-T', 'fields', *(word for field in FIELDS for word in ('-e', field))]
        theirs = answers_of_tshark(
            ask_tshark(settings + fields, file, folder), ask_tshark([*settings, '-x'], file, folder)
        )
    return (*compare_frames(len(frames), ours, theirs), len(found), compare_keys(found, theirs, keys))


def finish(count: int, same: int, opened: int, neither: int, found: int, wrong: int) -> int:
    """Prints the total, and returns the status."""
    print(
        f'{same} of {count} frames agree in {opened} opened layers, neither opens {neither}; '
        f'{found} found keys, {wrong} differ'
    )
    return 0 if same > 0 and same + neither == count and wrong == 0 else 1


def compare_transcript(path: str) -> int:
    """Compares the frames of a transcript, and returns the exit status."""
    data = read_input(path)
    frames, keys = frames_and_keys(data.decode('ascii', 'replace'))
    if not frames:
        is_one = transcripts.is_line(data.decode('ascii', 'replace').partition('\n')[0])
        raise Stop(f'{path}: no frames are in it' if is_one else diagnosis.no_transcript(path, data), UNREADABLE)
    return finish(len(frames), *compare_all(frames, keys))


def compare_made(count: int, start: int) -> int:
    """Compares the frames of made schedules, which are played one after the other: those of a campaign of these
    words."""
    total, sums = 0, [0] * 5
    for number in range(count):
        schedule = '\n'.join(made(start + number, 1 + number % 8)) + '\n'
        frames, keys = frames_and_keys(ask_tc(['play'], schedule.encode('ascii')))
        counts = compare_all(frames, keys)
        if counts[0] + counts[2] < len(frames) or counts[4]:
            print(f'these are of run {number}, made of {start + number} for {1 + number % 8}')
        total, sums = total + len(frames), [one + other for one, other in zip(sums, counts)]
    return finish(total, *sums)
