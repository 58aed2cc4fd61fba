"""Tells of which kind a text is, and finds its mistakes by the reader of that kind. Whether a text is right is said
by tc."""
import functools
from typing import Dict, List, Optional

from .. import program
from . import captures, daintree, grammar, schedules, scripts
from .packets import MODIFIED, PCAP, PCAPNG

READERS = {'schedule': schedules, 'capture': captures, 'script': scripts}
ENDINGS = {'.sched': 'schedule', '.capture': 'capture', '.script': 'script'}

# Lines that tell the kind of a text, and mistakes that are looked for: a longer text is left to tc.
LINES_THAT_TELL = 200
LONGEST = 16777216
# tc is asked for the link keys of this number of codes
MOST_CODES = 512

TRANSCRIPT, OF_TRANSCRIPT = 'transcript', b'0 node '
# Inputs of other kinds, by how they begin, and what reads them.
OTHERS = [
    *((magic, 'a pcap file: `gabzetu open` reads it') for magic in (*PCAP, *MODIFIED)),
    (PCAPNG, 'a pcapng file: `gabzetu open` reads it'),
    (daintree.MAGIC, 'a capture of Daintree: `gabzetu open` reads it'),
    (OF_TRANSCRIPT, 'a transcript: `gabzetu audit` judges it'),
    (b'1 nwk ', "an inspector's report"),
    (b'start\n> ', 'a log of tc_centre: `gabzetu hub-log` makes its transcript'),
    (b'{"active"', 'a backup: `restore SKIP BACKUP` in a script takes it'),
    (b'{', 'a JSON text'),
]


# What a text of each kind is for, for who gives it where a transcript is wanted.
USES = {
    'schedule': 'a schedule: `gabzetu play` writes its transcript',
    'capture': 'a text capture: `gabzetu inspect` reads it',
    'script': 'a script: `gabzetu admin` carries it out',
}


class LinkKeys:
    """The link keys of install codes, as tc says them."""

    def __init__(self) -> None:
        self.asked = 0

    @functools.lru_cache(None)
    def __call__(self, code: str) -> Optional[str]:
        if self.asked >= MOST_CODES:
            return None
        self.asked += 1
        ran = program.run_tc(['install', code])
        return ran.output.decode('ascii', 'replace').strip() if ran.status == 0 else None


def other_kind_of(data: bytes) -> Optional[str]:
    """Returns what an input of another kind is, or none."""
    return next((what for begin, what in OTHERS if data.startswith(begin)), None)


def score(kind: str, lines: List[grammar.Line]) -> int:
    """Returns how well lines fit a kind: a line that has a form of it counts twice, one with a first word of it
    once."""
    table = READERS[kind].GRAMMAR
    known = [line for line in lines if line.words[0].text in table.firsts]
    return sum(2 if table.read(line)[0] else 1 for line in known)


def scores_of(data: bytes) -> Dict[str, int]:
    """Returns how well the first lines of a text fit each kind."""
    lines = [line for line, _ in zip(grammar.read_lines(data), range(LINES_THAT_TELL))]
    return {kind: score(kind, lines) for kind in READERS}


def kind_by_lines(path: str, data: bytes) -> Optional[str]:
    """Returns the kind that the lines of a text tell, or none. Where two fit as well, the name decides."""
    scores = scores_of(data)
    best = max(scores, key=lambda it: (scores[it], path.endswith('.' + it)))
    return best if scores[best] else None


def kind_of(path: str, data: bytes) -> str:
    """Returns the kind of a text: that of its lines, else of the ending of its name, else a schedule."""
    by_name = (kind for ending, kind in ENDINGS.items() if path.endswith(ending))
    return kind_by_lines(path, data) or next(by_name, 'schedule')


def no_transcript(path: str, data: bytes) -> str:
    """Returns why an input is no transcript, where its first line is none: with what it is, if that can be told."""
    if not data:
        return f'{path}: it is empty, and no transcript'
    what = other_kind_of(data) or USES.get(kind_by_lines(path, data))
    return f'{path}: line 1 is no line of a transcript' + (f'; this is {what}' if what else '')


def other_than(kind: str, path: str, data: bytes) -> Optional[str]:
    """Returns what an input is that was taken for this kind, where it fits another one twice as well; or none."""
    if kind not in (*READERS, TRANSCRIPT) or (kind == TRANSCRIPT and data.startswith(OF_TRANSCRIPT)):
        return None
    scores = scores_of(data)
    fits_better = max(scores.values()) >= 2 * scores.get(kind, 0)
    return other_kind_of(data) or (USES.get(kind_by_lines(path, data)) if fits_better else None)


def find_mistakes(kind: str, data: bytes, first: int = 1, most: Optional[int] = None) -> List[grammar.Mistake]:
    """Returns the mistakes of a text of this kind from line `first` on, at most one a line, and no more than `most`.

    tc took the lines before `first`."""
    if len(data) > LONGEST:
        return []
    return READERS[kind].find_mistakes(data, LinkKeys(), first, most)


def hints(kind: str, given: bytes, line: int) -> List[str]:
    """Returns what is wrong with a line, as `LINE:COLUMN: 'text': message`; nothing where the reader finds nothing."""
    if kind not in READERS:
        return []
    return [grammar.describe(it) for it in find_mistakes(kind, given, line, 1) if it.line == line]
