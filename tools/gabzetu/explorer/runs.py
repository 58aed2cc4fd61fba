"""Makes the data of a transcript's page: its text, and in words what became of its frames and what its nodes did."""
from typing import Any, List, Optional, Union

from ..formats import fields, policy, stories
from ..formats import history as histories
from ..formats.causes import CLAIMS
from ..output import MOST_OF_TC
from .tables import Anatomies, Table


class Run:
    """The data of one page, as it is put together."""

    def __init__(self, history: histories.History) -> None:
        self.history = history
        self.centre = next((node.name for node in history.nodes if node.role == 'centre'), None)
        self.texts, self.boxes, self.refusals = Table(), Table(), {}
        self.anatomies = Anatomies(self.texts)
        self.places = {node.name: place for place, node in enumerate(history.nodes)}
        self.sent = {}
        for place, frame in enumerate(history.frames):
            self.sent.setdefault(frame.event, []).append(place)
        self.frame_places = {frame.number: place for place, frame in enumerate(history.frames)}

    def place_of(self, name: str) -> int:
        """Returns the place of a node, or -1 of nobody and of a name that no line declares."""
        return self.places.get(name, -1)

    def box(self, box: histories.Box) -> int:
        """Returns the place of a box."""
        return self.boxes.place((box.kind, tuple(self.texts.place(text) for text in box.texts)))

    def fold(self, event: int, boxes: List[histories.Box]) -> int:
        """Returns the place of the text under which equal refusals in a row are folded, or -1."""
        if event in self.sent or len(boxes) != 1 or boxes[0].kind != 'refusal':
            return -1
        words = next(words for words in self.history.events[event] if words[0] == 'refuse')
        return self.texts.place(f'refuses ({words[2]}): {words[3]}')

    def refusal(self, event: int, words: list) -> int:
        """Returns the place of the sentence of the policy on the refusal of an event, or -1.

        Events of a lone refusal share it."""
        lines = self.history.events.get(event, [])
        refused = next((it for it in lines if it[0] == 'refuse'), None)
        if refused is None:
            return -1
        kind = (refused[1] == self.centre, tuple(refused[2:4]), tuple(words[:1])) if len(lines) == 1 else event
        if kind not in self.refusals:
            self.refusals[kind] = self.texts.place(self.sentence(event, lines, words))
        return self.refusals[kind]

    def sentence(self, event: int, lines: list, words: Any) -> Any:
        """Returns what the policy says of the refusal of an event."""
        numbered = [stories.Line(0, '', fields.read_transcript_line([str(event), *it])) for it in lines]
        story = stories.Story(stories.Group(event, numbered), self.centre, words or None)
        refused, rule = story.refusal(), story.rule()
        text = policy.sentence_of_refusal(
            rule and rule.refused, refused['layer'], refused['reason'], story.is_judged()
        )
        return f'{refused["reason"]}: {text}'

    def event(self, event: int) -> list:
        """Returns an event: number, node, boxes, frames that it sends, the frame that it delivers, words, fold,
        sentence on its refusal."""
        lines, boxes = self.history.events.get(event, []), histories.boxes(self.history, event)
        words = self.history.schedule.events.get(event, []) if self.history.schedule else []
        delivered = self.frame_places.get(self.history.frame_at.get(event), -1)
        return [
            event,
            self.place_of(self.history.node_of(lines)),
            [self.box(it) for it in boxes],
            self.sent.get(event, []),
            delivered,
            self.texts.place(' '.join(words)),
            self.fold(event, boxes),
            self.refusal(event, words),
        ]

    def events(self) -> List[list]:
        """Returns the events that have lines or words, in order."""
        numbers = set(self.history.events) | set(self.history.schedule.events if self.history.schedule else [])
        return [self.event(event) for event in sorted(numbers - {0})]

    def verdict(self, verdict: histories.Verdict) -> List[int]:
        """Returns what a node made of a frame: event, node, the place of the text."""
        text = (
            histories.deed(verdict.reason)
            + f' at {verdict.event}'
            + ('' if verdict.reason is None else f': {verdict.reason}')
        )
        return [verdict.event, self.place_of(verdict.node), self.texts.place(text), 1 if verdict.reason is None else 0]

    def frame(self, frame: Any) -> list:
        """Returns a frame: number, event, sender, kind, words, counters, destination, the word where nobody judged it,
        verdicts, sections."""
        words, counters = self.history.reader.describe(frame.event, frame.data)
        return [
            frame.number,
            frame.event,
            self.place_of(frame.sender),
            frame.kind,
            self.texts.place(', '.join(words)),
            self.texts.place(', '.join(counters)),
            self.place_of(self.history.destination(frame)),
            self.texts.place(self.history.unjudged(frame)),
            [self.verdict(it) for it in self.history.verdicts[frame.number]],
            self.anatomies.sections(self.history.reader, frame.event, frame.data),
        ]

    def data(self) -> dict:
        """Returns what the page gets, but for its title, text and verdict."""
        events, frames = self.events(), [self.frame(it) for it in self.history.frames]
        return {
            'kind': 'run',
            'nodes': [list(node) for node in self.history.nodes],
            'events': events,
            'frames': frames,
            'end': explain_end(self.history.end),
            'hasSchedule': self.history.schedule is not None,
            'texts': self.texts.things(),
            'boxes': self.boxes.things(),
            'layouts': self.anatomies.layouts.things(),
        }


def explain_end(end: List[str]) -> str:
    """Returns the end line in words."""
    events, seals, accepts, refusals, ideal, private = end
    honest = (
        'all that was accepted had been sealed before'
        if ideal == 'yes'
        else 'something was accepted that nobody had sealed'
    )
    outside = 'outsiders used no key of the network' if private == 'yes' else 'outsiders used a key of the network'
    return f'{events} events; {seals} layers sealed, {accepts} accepted; {refusals} refusals; {honest}; {outside}'


def explain_verdict(ran: Any) -> List[Optional[Union[int, str]]]:
    """Returns the audit's verdict: its words, whether it is good, what they mean, and the line that it names or 0."""
    words = ran.output.decode('ascii', 'replace').split()
    text = ' '.join(words)
    if words[:1] == ['sound'] and len(words) == 4:
        locked = 'removed devices are locked out' if words[3] == 'locked' else 'nothing is claimed of removed devices'
        return [text, True, f'all claims hold; {locked}', 0]
    if words[:1] == ['broken'] and len(words) == 3 and words[2].isdigit():
        return [
            text,
            False,
            f'line {words[1]} breaks claim {words[2]}: {CLAIMS.get(int(words[2]), "")}',
            int(words[1]),
        ]
    if words[:1] == ['refused'] and len(words) == 3 and words[1].isdigit():
        return [text, False, f'line {words[1]} is no line of a transcript', int(words[1])]
    if words[:2] == ['too', 'long']:
        return [text, None, f'not audited: the transcript is longer than the {MOST_OF_TC:,} bytes that tc reads', 0]
    return [text, False, f'tc ended with status {ran.status}', 0]


def make_run(history: histories.History) -> dict:
    """Returns the data of the page of a history."""
    return Run(history).data()
