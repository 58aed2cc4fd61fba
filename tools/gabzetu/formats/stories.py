"""The groups of lines of a transcript, and which event and rule gave each: by the schedule where there is one, else
by the lines."""
import collections
from typing import Any, List, Optional, Tuple

from . import frames, policy
from .fields import read_transcript_line
from .grammar import read_lines
from .schedules import DECLARED

# A node as the reader of frames takes it.
Named = collections.namedtuple('Named', 'name eui')

# number: of the line in the file, from 1; text; fields: by their names, or none where it is no line of a transcript
Line = collections.namedtuple('Line', 'number text fields')

# event: its number, none for the end line; lines
Group = collections.namedtuple('Group', 'event lines')

# title: what the rule is of; place: the part of docs/POLICY.md; rows: its texts, each with a head; refused: its
# refusals, or none
Rule = collections.namedtuple('Rule', 'title place rows refused')

COMMAND_NAMES = {
    frames.UPDATE: 'Update-Device',
    frames.REMOVE: 'Remove-Device',
    frames.SWITCH: 'Switch-Key',
    frames.TUNNEL: 'Tunnel',
    frames.VERIFY: 'Verify-Key',
    frames.CONFIRM: 'Confirm-Key',
}
TRANSPORTED = {
    1: 'Transport-Key, network key',
    4: 'Transport-Key, link key with the centre',
    3: 'Transport-Key, link key with a partner',
}
REQUESTED = {4: 'Request-Key, with the centre', 2: 'Request-Key, with a partner'}

# Changes that only one event of a node's own makes.
BY_CHANGE: List[Tuple[str, dict, str]] = [
    ('live', {}, 'provision'),
    ('removed', {}, 'remove'),
    ('roll', {'roll': 'sending'}, 'roll'),
    ('roll', {'roll': 'idle'}, 'switch'),
    ('told', {}, 'timer'),
    ('untold', {}, 'again'),
    ('state', {'state': 'knocked'}, 'knock'),
    ('state', {'state': 'rejoining'}, 'rejoin'),
    ('boot', {}, 'boot'),
    ('dump', {}, 'dump'),
    ('down', {'cause': 'reset'}, 'reset'),
    ('inject', {}, 'inject'),
    ('forge', {}, 'forge'),
]

# What a node seals in an event of its own.
BY_COMMAND = {
    'Request-Key, with the centre': 'timer',
    'Request-Key, with a partner': 'ask',
    'Verify-Key': 'timer',
    'Update-Device': 'child',
    'Transport-Key, network key': 'child',
    'Transport-Key, link key with a partner': 'share',
    'Remove-Device': 'remove',
    'Leave': 'remove',
    'Switch-Key': 'switch',
}


def lines_of(text: str) -> List[str]:
    """Returns the lines of a text, each of which ends with a line feed and nothing else."""
    lines = text.split('\n')
    return lines[:-1] if lines[-1] == '' else lines


def read_text(text: str) -> List[Line]:
    """Returns the lines of a transcript, also of one that breaks claims."""
    return [Line(number, it, read_transcript_line(it.split(' '))) for number, it in enumerate(lines_of(text), 1)]


def event_of(line: Line) -> Optional[int]:
    """Returns the event of a line, or none."""
    return line.fields.get('event') if line.fields else None


def groups_of(lines: List[Line]) -> List[Group]:
    """Returns the groups: the longest runs of lines with one event number. The end line is one of its own."""
    groups = []
    for line in lines:
        event = event_of(line)
        if groups and event is not None and groups[-1].event == event:
            groups[-1].lines.append(line)
        else:
            groups.append(Group(event, [line]))
    return groups


def reader_of(lines: List[Line]) -> frames.Reader:
    """Returns the reader of what frames and contents carry, by the terms of these lines."""
    events, nodes = collections.defaultdict(list), []
    for line in lines:
        if event_of(line) is not None:
            events[event_of(line)].append(line.text.split(' ')[1:])
            if line.fields['kind'] == 'node':
                nodes.append(frames_node(line.fields))
    return frames.Reader(events, nodes)


def frames_node(fields: dict) -> Any:
    """Returns a node as the reader of frames takes it."""
    return Named(fields['name'], fields['eui'])


def command_name(content: bytes) -> Optional[str]:
    """Returns the name of an APS command as the policy has it, or none."""
    if not content:
        return None
    if content[0] == frames.TRANSPORT:
        return TRANSPORTED.get(content[1] if len(content) > 1 else None)
    if content[0] == frames.REQUEST:
        return REQUESTED.get(content[1] if len(content) > 1 else None)
    return COMMAND_NAMES.get(content[0])


def carried(fields: dict) -> Optional[str]:
    """Returns what a term carries: the name of a command, `data`, `sealed` where its APS part is sealed, or none."""
    try:
        content = bytes.fromhex(fields['content'].replace('-', ''))
        is_command = int(fields['header'][:2], 16) & 3 == frames.COMMAND
        if fields['layer'] == 'nwk':
            return (
                ('Leave' if content[:1] == bytes([frames.LEAVE]) else None) if is_command else carried_by_aps(content)
            )
        return command_name(content) if is_command else 'data'
    except (ValueError, frames.Malformed, IndexError):
        return None


def carried_by_aps(content: bytes) -> str:
    """Returns what an APS frame carries."""
    part = frames.read_aps(content)
    if part.payload is None:
        return 'sealed'
    return command_name(part.payload) if part.kind == frames.COMMAND else 'data'


class Story:
    """What happened in a group. `words` are those of the event in the schedule, or none."""

    def __init__(self, group: Group, centre: Optional[str], words: Optional[List[str]] = None) -> None:
        self.fields = [it.fields for it in group.lines if it.fields]
        self.centre = centre
        self.words = words

    def of_kind(self, *kinds: str) -> List[dict]:
        """Returns the fields of the lines of some kinds."""
        return [it for it in self.fields if it['kind'] in kinds]

    def refusal(self) -> Optional[dict]:
        """Returns the fields of the refusal, or none."""
        return next(iter(self.of_kind('refuse')), None)

    def is_delivery(self) -> bool:
        """Returns whether a frame was delivered."""
        if self.words:
            return self.words[0] == 'deliver'
        refused = self.refusal()
        return bool(self.of_kind('accept')) or bool(refused and refused['layer'] != 'event')

    def command(self) -> Optional[str]:
        """Returns what the frame carried that was delivered, as far as it was accepted."""
        accepts = self.of_kind('accept')
        return carried(accepts[-1]) if accepts else None

    def is_judged(self) -> bool:
        """Returns whether a refusal came of judging the frame, before a rule was asked."""
        refused = self.refusal()
        return bool(refused) and refused['layer'] != 'event' and self.command() in (None, 'sealed', 'data')

    def event(self) -> Optional[str]:
        """Returns the first word of the event in a schedule, or none where the lines don't tell it."""
        if self.words:
            return self.words[0]
        if self.is_delivery():
            return 'deliver'
        for kind, wanted, event in BY_CHANGE:
            if any(all(it.get(key) == value for key, value in wanted.items()) for it in self.of_kind(kind)):
                return event
        return self.event_by_seals()

    def event_by_seals(self) -> Optional[str]:
        """Returns the event by what was sealed, or none."""
        seals = self.of_kind('seal')
        if not seals:
            return None
        found = [carried(it) for it in seals]
        command = next((it for it in found if it in BY_COMMAND), None)
        if command:
            return BY_COMMAND[command]
        return 'tell' if len(seals) > 1 else 'say' if found == ['data'] else None

    def node(self) -> Optional[str]:
        """Returns the name of the node whose event it is, or none."""
        if self.is_delivery() and self.words:
            return self.words[2]
        named = [it['node'] for it in self.fields if it.get('node', '-') != '-']
        return named[-1] if named else self.centre

    def rule(self) -> Optional[Rule]:
        """Returns the rule that answered, or none."""
        event = self.event()
        if event == 'deliver':
            return self.rule_of_delivery()
        node = self.words[1] if self.words and event in ('say', 'timer', 'child') else self.node()
        found = (
            policy.rule_of_event(
                event, event in ('provision', 'remove', 'again', 'share', 'roll', 'switch') or node == self.centre
            )
            if event
            else None
        )
        if not found:
            return None
        (name, of), (refused, otherwise) = found
        return Rule(
            f'{name} (of: {of})',
            "Events of a node's own",
            [('refused, in this order', refused), ('otherwise', otherwise)],
            refused,
        )

    def heard(self, lines: List[Line]) -> Optional[Line]:
        """Returns the line with which the frame of a `deliver` event went on the air, or none."""
        if not self.words or self.words[0] != 'deliver':
            return None
        sent = (it for it in lines if it.fields and it.fields['kind'] in ('send', 'inject'))
        return next((it for it in sent if str(it.fields['frame']) == self.words[1]), None)

    def note(self) -> Optional[str]:
        """Returns what else holds of the event: where a disk cut it, or where no rule answers it; or none."""
        if self.of_kind('stopped') or any(it['cause'] == 'disk' for it in self.of_kind('down')):
            return policy.CUT
        return policy.NOTES.get(self.event())

    def rule_of_delivery(self) -> Optional[Rule]:
        """Returns the rule that answered a frame, or none."""
        if self.command() == 'data' and not self.refusal():
            return Rule('data', 'Judging a frame', [('accepted', policy.DATA)], None)
        row = policy.commands().get(self.command())
        if not row or self.is_judged():
            return None
        taken, refused, effect = row
        rows = [('taken by, in the form', taken), ('refused, in this order', refused), ('effect', effect)]
        return Rule(self.command(), 'Commands', rows, refused)


def centre_of(lines: List[Line]) -> Optional[str]:
    """Returns the name of the first centre that the lines declare, or none."""
    return next(
        (
            it.fields['name']
            for it in lines
            if it.fields and it.fields['kind'] == 'node' and it.fields['role'] == 'centre'
        ),
        None,
    )


def schedule_events(data: bytes) -> List[Tuple[int, list]]:
    """Returns the words of the events of a schedule, in order, with the numbers of their lines."""
    return [
        (it.number, [word.text for word in it.words]) for it in read_lines(data) if it.words[0].text not in DECLARED
    ]


def last_event(lines: List[Line]) -> int:
    """Returns how many events a run has: as the end line counts them, else the greatest number of a line."""
    ends = [it.fields['events'] for it in lines if it.fields and it.fields['kind'] == 'end']
    counted = ends[-1] if ends and isinstance(ends[-1], int) else 0
    return max([counted, *(event_of(it) or 0 for it in lines)])


def mismatch(lines: List[Line], data: bytes) -> Optional[str]:
    """Returns why a schedule is not that of a transcript, by the number of its events and its nodes, or none."""
    events = len(schedule_events(data))
    if events != last_event(lines):
        return f'it has {events} events, and the transcript has {last_event(lines)}'
    declared = [it.text.upper().split(' ')[1:] for it in read_lines(data) if it.words[0].text == 'node']
    nodes = [it.text.upper().split(' ')[2:] for it in lines if it.fields and it.fields['kind'] == 'node']
    return None if declared == nodes else 'its nodes are not those of the transcript'
