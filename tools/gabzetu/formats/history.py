"""What a transcript shows of a run: what became of each frame, and what each node did in each event, in words.

Charts and explorers show the same words because both take them from here. Nothing is judged: each word says what a
line says."""
import collections
from typing import Dict, List, Optional

from . import frames, transcripts
from .numbers import read_number
from ..errors import UNREADABLE, Stop
from ..output import read_input

RANKS = {'centre': 0, 'router': 1, 'device': 2, 'undeclared': 3}
DECLARATIONS = ('node', 'code', 'netkey', 'counter', 'draw')
POWER = {'stopped': 'power is cut', 'down reset': 'reset', 'down disk': 'the disk fails'}
AT_THE_CENTRE = ('draw', 'live', 'removed', 'told', 'untold')
OF_NOBODY = ('forge', 'inject')
# The place of the node among the words of an event of a schedule; those of events that aren't here are of the centre
# or of nobody.
NODE_PLACES = {word: 1 for word in 'say timer knock rejoin child ask tell reset boot dump stop fail'.split()}
NODE_PLACES['deliver'] = 2

# What a node made of a frame in an event; the reason is none where it accepted it.
Verdict = collections.namedtuple('Verdict', 'event node reason')

# What a node did in an event. kind: plain, keys (where keys changed), refusal, stop, boot or dump
Box = collections.namedtuple('Box', 'kind texts')

# nodes: the words of the node lines; events: the words of each event by its number
Schedule = collections.namedtuple('Schedule', 'nodes events')


def read_schedule(path: str) -> Schedule:
    """Returns a schedule, of which it reads no more than its node lines and its events."""
    try:
        text = read_input(path).decode('ascii')
    except UnicodeDecodeError as error:
        raise Stop(f'{path}: byte {error.start + 1} is not ASCII', UNREADABLE) from error
    lines = [line.split() for line in text.splitlines() if line.strip() and not line.startswith('#')]
    nodes = [
        [*words[1:3], *(word.upper() for word in words[3:5]), *words[5:]] for words in lines if words[0] == 'node'
    ]
    return Schedule(nodes, dict(enumerate((words for words in lines if words[0] not in DECLARATIONS), 1)))


def may_deliver(words: List[str]) -> bool:
    """Returns whether a line may be of a delivery whose frame the transcript doesn't show."""
    if words[0] == 'refuse':
        return words[2] != 'event' or words[3] == 'down'
    return words[0] == 'stopped' or (words[0] == 'down' and words[2] == 'disk')


def seal_of(data: bytes) -> Optional[str]:
    """Returns the header of the outermost sealed layer of a frame, or of its APS layer where none is sealed; none of
    no frame."""
    try:
        part = frames.read_nwk(data)
        return part.header if part.payload is None else frames.read_aps(part.payload).header
    except frames.Malformed:
        return None


def named_nodes(events: Dict[int, List[list]]) -> List[transcripts.Node]:
    """Returns the nodes in the order of centre, routers and devices.

    In a foreign transcript a line may name one without a node line."""
    declared = transcripts.read_nodes(events)
    names = {words[1] for lines in events.values() for words in lines if words[0] not in AT_THE_CENTRE + OF_NOBODY} - {
        '-'
    }
    others = sorted(names - {node.name for node in declared})
    nodes = declared + [transcripts.Node(name, 'undeclared', '', '') for name in others]
    return sorted(nodes, key=lambda node: RANKS[node.role])


class History:
    """A transcript with what became of its frames."""

    def __init__(self, transcript: transcripts.Transcript, schedule: Optional[Schedule] = None) -> None:
        self.events, self.end, self.schedule = transcript.events, transcript.end, schedule
        self.nodes = named_nodes(self.events)
        self.frames = transcripts.read_frames(self.events)
        self.reader = frames.Reader(self.events, self.nodes)
        self.names = {node.eui: node.name for node in self.nodes if node.eui}
        self.by_short = {node.short: node.name for node in reversed(self.nodes) if node.short}
        self.sent_at = {frame.number: frame.event for frame in self.frames}
        self.by_seal = collections.defaultdict(list)
        for frame in self.frames:
            self.by_seal[seal_of(frame.data)].append(frame)
        self.verdicts, self.last_unknown = collections.defaultdict(list), 0
        self.frame_at = {event: self.judge(event, self.events[event]) for event in sorted(self.events) if event}

    def node_of(self, lines: List[List[str]]) -> Optional[str]:
        """Returns the node that an event is of, or none."""
        if any(words[0] in AT_THE_CENTRE for words in lines):
            return self.nodes[0].name if self.nodes else None
        named = [words[1] for words in lines if words[0] not in OF_NOBODY and words[1] != '-']
        return named[0] if named else None

    def judge(self, event: int, lines: List[List[str]]) -> Optional[int]:
        """Notes what became of the frame that an event delivers, and returns its number, or none."""
        number, node = self.delivered(event, lines), self.node_of(lines)
        refusals = [words[3] for words in lines if words[0] == 'refuse']
        stops = [POWER[' '.join([words[0], *words[2:]])] for words in lines if words[0] in ('stopped', 'down')]
        if number is not None:
            self.verdicts[number].append(Verdict(event, node, (refusals + stops + [None])[0]))
        elif self.schedule is None and any(may_deliver(words) for words in lines):
            self.last_unknown = event
        return number

    def delivered(self, event: int, lines: List[List[str]]) -> Optional[int]:
        """Returns the number of the frame that is delivered in an event, by the schedule or the accepted terms; or
        none."""
        if self.schedule is not None:
            words = self.schedule.events.get(event, [])
            number = read_number(words[1]) if words[:1] == ['deliver'] and len(words) == 3 else None
            return number if self.sent_at.get(number, event) < event else None
        accepted = [words for words in lines if words[0] == 'accept']
        return self.carrier(event, accepted[0]) if accepted else None

    def carrier(self, event: int, accept: List[str]) -> Optional[int]:
        """Returns the number of the last frame before an event whose outermost sealed layer is an accepted term, or
        none."""
        for frame in reversed(self.by_seal[accept[-2]]):
            term = self.reader.here[frame.event].get(accept[-2])
            is_same = term is None or term.content == accept[-1]
            if frame.event < event and frame.sender != accept[1] and is_same:
                return frame.number
        return None

    def destination(self, frame: transcripts.Frame) -> Optional[str]:
        """Returns the node that has the short address to which a frame goes, or none."""
        return self.by_short.get(frame.data[2:4][::-1].hex().upper())

    def targets(self, frame: transcripts.Frame) -> List[str]:
        """Returns the nodes to which the arrow of a frame goes: those that judged it, and else its destination."""
        judged = [verdict.node for verdict in self.verdicts[frame.number]]
        named = list(dict.fromkeys(name for name in judged if name not in (None, frame.sender)))
        return named or [name for name in [self.destination(frame)] if name not in (None, frame.sender)]

    def unjudged(self, frame: transcripts.Frame) -> str:
        """Returns the word on a frame that nobody judged.

        A transcript alone doesn't show which frame a refusal at NWK is of."""
        return 'not accepted' if self.last_unknown > frame.event else 'lost'

    def fate(self, frame: transcripts.Frame) -> str:
        """Returns in words what became of a frame."""
        texts = []
        for event, node, reason in self.verdicts[frame.number]:
            by = '' if node == self.destination(frame) else f' by {node}'
            texts.append(f'{deed(reason)}{by} at {event}' + ('' if reason is None else f': {reason}'))
        return ', '.join(texts) if texts else self.unjudged(frame)


def deed(reason: Optional[str]) -> Optional[str]:
    """Returns what a node did with a frame, by the reason for which it didn't accept it, or none."""
    return 'accepted' if reason is None else 'cut off' if reason in POWER.values() else 'refused'


def check_schedule(history: History, path: str) -> None:
    """Stops where a schedule can't be the one whose run a history is of."""
    declared = [[*words[1:]] for words in history.events[0] if words[0] == 'node']
    if history.schedule.nodes != declared:
        raise Stop(f'{path}: its node lines are not those of the transcript; give the schedule that was played')
    if len(history.schedule.events) != int(history.end[0]):
        raise Stop(
            f'{path}: it has {len(history.schedule.events)} events, and the transcript has {history.end[0]}; '
            'give the schedule that was played'
        )
    for event, words in history.schedule.events.items():
        place, node = NODE_PLACES.get(words[0], 0), history.node_of(history.events.get(event, []))
        if node is not None and place and words[place : place + 1] != [node]:
            raise Stop(
                f'{path}: event {event} is `{" ".join(words)}`, and in the transcript it is of {node}; '
                'give the schedule that was played'
            )


def make_history(transcript: transcripts.Transcript, schedule_path: Optional[str] = None) -> History:
    """Returns the history of a transcript, with the schedule that was played where its path is given."""
    if schedule_path is None:
        return History(transcript)
    history = History(transcript, read_schedule(schedule_path))
    check_schedule(history, schedule_path)
    return history


def key_change(history: History, lines: List[List[str]], words: List[str]) -> Optional[str]:
    """Returns the words on one change of keys, or none where a line is no such change."""
    kind, key = words[0], frames.short_key(words[-1])
    if kind == 'install':
        is_active = any(it[0] == 'active' and it[2] == words[2] for it in lines)
        return f'network key {words[3]} {frames.short_key(words[2])}: new' + (', active' if is_active else '')
    if kind == 'active' and not any(it[0] == 'install' and it[2] == words[2] for it in lines):
        return f'network key {key}: active'
    if kind == 'row':
        return f'key {frames.short_key(words[3])} with {history.names.get(words[2], words[2])}: {words[4]}'
    if kind == 'drop':
        what = 'network key' if words[2] == 'net' else f'key with {history.names.get(words[3], words[3])}'
        return f'{what} {key}: dropped'
    if kind == 'pair':
        return f'key {key} of {history.names.get(words[2], words[2])} and {history.names.get(words[3], words[3])}'
    return None


def other_change(history: History, words: List[str]) -> Optional[str]:
    """Returns the words on one change of a state, or none where a line is no such change."""
    if words[0] == 'state':
        return f'state: {words[2]}'
    if words[0] in ('live', 'removed', 'told', 'untold'):
        return f'{history.names.get(words[1], words[1])} is {words[0]}'
    return f'rollover: {words[2]}' if words[0] == 'roll' else None


def stored(history: History, lines: List[List[str]]) -> List[str]:
    """Returns the words on what an event stores: limits of outgoing counters, and floors of incoming ones by their
    sender."""
    if not any(words[0] == 'commit' for words in lines):
        return []
    limits = [f'{words[2]} {words[3]}' for words in lines if words[0] == 'reserve']
    floors = collections.defaultdict(list)
    for words in lines:
        if words[0] == 'floor':
            floors[history.names.get(words[4], words[4])].append(f'{words[2]} {words[5]}')
    texts = ['limits ' + ', '.join(limits)] if limits else []
    texts += [f'floors of {name} ' + ', '.join(values) for name, values in floors.items()]
    return ['stored' + (': ' if texts else '') + '; '.join(texts)]


def special_box(words: List[str]) -> Optional[Box]:
    """Returns the box of a line about power or a refusal, or none."""
    if words[0] == 'refuse':
        return Box('refusal', [f'refuses ({words[2]}): {" ".join(words[3:])}'])
    if words[0] in ('stopped', 'down'):
        return Box('stop', [POWER[' '.join([words[0], *words[2:]])]])
    if words[0] == 'boot':
        return Box('boot', ['boots'])
    return Box('dump', [f'record: {len(words[2]) // 2} bytes']) if words[0] == 'dump' else None


def boxes(history: History, event: int) -> List[Box]:
    """Returns the boxes of an event at its node."""
    lines, number = history.events.get(event, []), history.frame_at.get(event)
    found = [it for it in map(special_box, lines) if it is not None]
    which = '' if number is None else f' {number}'
    if number is not None:
        found = [
            it._replace(texts=[it.texts[0].replace('refuses', f'refuses{which}', 1)]) if it.kind == 'refusal' else it
            for it in found
        ]
    is_accepted = any(words[0] == 'accept' for words in lines) and not any(it.kind == 'refusal' for it in found)
    keys = [text for text in (key_change(history, lines, words) for words in lines) if text]
    others = [text for text in (other_change(history, words) for words in lines) if text]
    texts = ([f'accepts{which}'] if is_accepted else []) + others + keys + stored(history, lines)
    return ([Box('keys' if keys else 'plain', texts)] if texts else []) + found
