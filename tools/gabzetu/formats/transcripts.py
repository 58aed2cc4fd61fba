"""Reads transcripts, as docs/FORMATS.md has them: the lines of each event, the nodes, and the frames that went on the
air."""
import collections
import re
from typing import Dict, List, Tuple

from ..errors import UNREADABLE, Stop
from ..output import read_input
from .diagnosis import no_transcript
from .numbers import read_number

Node = collections.namedtuple('Node', 'name role eui short')

# number: of the frame; event: in which it was sent; sender: a node's name, or none for forged and injected ones; kind:
# send, forge or inject; data: its bytes
Frame = collections.namedtuple('Frame', 'number event sender kind data')

# text: the whole file; events: the lines of each event as words without the event's number; end: the words of the end
# line
Transcript = collections.namedtuple('Transcript', 'text events end')

NAME, EUI, SHORT, KEY, NUMBER, BYTES = (
    r'\S+',
    '[0-9A-F]{16}',
    '[0-9A-F]{4}',
    '[0-9A-F]{32}',
    r'\d{1,10}',
    '(?:-|(?:[0-9A-F]{2})+)',
)
LAYER = '(?:nwk|aps)'
TERM = f'{LAYER} (?:data|network|transport|load) {KEY} {EUI} {NUMBER} [0-9A-F]{{2}} {BYTES} {BYTES}'

# What follows the first word of each line of an event.
SHAPES = {
    'node': f'{NAME} (?:centre|router|device) {EUI} {SHORT} {NUMBER} {NUMBER}',
    'given': f'{NAME} (?:net {KEY} {NUMBER}|link {EUI} {KEY})',
    'counter': f'{NAME} {LAYER} {NUMBER}',
    'reserve': f'{NAME} {LAYER} {NUMBER}',
    'floor': f'{NAME} {LAYER} {KEY} {EUI} {NUMBER}',
    'draw': KEY,
    'drop': f'{NAME} (?:net {KEY}|link {EUI} {KEY})',
    'install': f'{NAME} {KEY} {NUMBER}',
    'active': f'{NAME} {KEY}',
    'start': f'{NAME} {KEY} {NUMBER}',
    'row': f'{NAME} {EUI} {KEY} (?:provisional|unverified|verified)',
    'pair': f'{NAME} {EUI} {EUI} {KEY}',
    'state': f'{NAME} [a-z]+',
    'live': EUI,
    'removed': EUI,
    'roll': f'{NAME} (?:sending|idle)',
    'told': EUI,
    'untold': EUI,
    'commit': NAME,
    'accept': f'{NAME} {TERM}',
    'refuse': rf'{NAME} (?:nwk|aps|event) [a-z-]+(?: {NUMBER})?',
    'seal': f'{NAME} {TERM}',
    'forge': TERM,
    'send': f'{NAME} {NUMBER} {BYTES}',
    'inject': f'{NUMBER} {BYTES}',
    'stopped': NAME,
    'down': f'{NAME} (?:reset|disk)',
    'boot': NAME,
    'dump': f'{NAME} {BYTES}',
}
PATTERNS = {kind: re.compile(shape, re.ASCII) for kind, shape in SHAPES.items()}
END = re.compile(f'end {NUMBER} {NUMBER} {NUMBER} {NUMBER} (?:yes|no) (?:yes|no)', re.ASCII)


class NoTranscript(Stop):
    """Why a text is no transcript."""

    def __init__(self, message: str) -> None:
        super().__init__(message, UNREADABLE)


def is_line(line: str) -> bool:
    """Returns whether a line, but the end line, has the form of a transcript's line."""
    number, _, rest = line.partition(' ')
    kind, _, words = rest.partition(' ')
    is_event = len(number) <= 10 and read_number(number) is not None
    return is_event and kind in PATTERNS and PATTERNS[kind].fullmatch(words) is not None


def parse_transcript(text: str, path: str) -> Transcript:
    """Returns the transcript of a text. The path is for messages."""
    events, end = {0: []}, None
    for number, line in enumerate(text.splitlines(), 1):
        if end is not None:
            raise NoTranscript(f'{path}: line {number} follows the end line')
        if END.fullmatch(line):
            end = line.split(' ')[1:]
        elif is_line(line):
            words = line.split(' ')
            events.setdefault(int(words[0]), []).append(words[1:])
        elif number == 1:
            raise NoTranscript(no_transcript(path, text.encode()))
        else:
            raise NoTranscript(f'{path}: line {number} is no line of a transcript')
    if end is None:
        raise NoTranscript(f'{path}: there is no end line')
    return Transcript(text, events, end)


def read_transcript(path: str) -> Transcript:
    """Returns the transcript of a file, or of the standard input where the path is `-`."""
    try:
        return parse_transcript(read_input(path).decode('ascii'), path)
    except UnicodeDecodeError as error:
        raise NoTranscript(f'{path}: byte {error.start + 1} is not ASCII') from error


def read_events(path: str) -> Tuple[Dict[int, list], List[str]]:
    """Returns the lines of each event as words without the event's number, and the words of the end line."""
    transcript = read_transcript(path)
    return transcript.events, transcript.end


def read_nodes(events: Dict[int, List[list]]) -> List[Node]:
    """Returns the nodes in the order of their first declarations."""
    found = {}
    for words in events[0]:
        if words[0] == 'node':
            found.setdefault(words[1], Node(words[1], words[2], words[3], words[4]))
    return list(found.values())


def frame_of(event: int, words: List[str]) -> Frame:
    """Returns the frame that a send or inject line puts on the air."""
    if words[0] == 'inject':
        return Frame(int(words[1]), event, None, 'inject', bytes.fromhex(words[2].replace('-', '')))
    sender, kind = (None, 'forge') if words[1] == '-' else (words[1], 'send')
    return Frame(int(words[2]), event, sender, kind, bytes.fromhex(words[3].replace('-', '')))


def read_frames(events: Dict[int, List[list]]) -> List[Frame]:
    """Returns the frames in their order. Those of nobody are forged or injected."""
    return [
        frame_of(event, words)
        for event, lines in sorted(events.items())
        for words in lines
        if words[0] in ('send', 'inject')
    ]
