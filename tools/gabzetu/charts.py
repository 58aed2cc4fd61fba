"""Writes the history of a run as a message sequence chart, in the language of mscgen.

Nodes are columns, and before them is a column of the events' numbers. A frame has a row for each node that judged it,
so that no arrow lies over another. The heads come again after each screenful of rows."""
import collections
import sys
import textwrap
from typing import Any, Iterator, List, Optional

from .errors import WRONG_USE, Stop
from .formats import history as histories

GREEN, RED, GREY = '#006000', '#b00000', '#707070'
BLUE, YELLOW, PALE_RED, PALE = '#d8e8ff', '#fff4b0', '#ffd8d8', '#f4f4f4'
HEAD, HEAD_EDGE = '#e4e8ee', '#a0a8b4'
SHAPES = {
    'plain': ('rbox', PALE),
    'keys': ('abox', YELLOW),
    'refusal': ('box', PALE_RED),
    'stop': ('box', PALE_RED),
    'boot': ('box', BLUE),
    'dump': ('note', PALE),
}
COLUMN, LETTERS = 260, 36  # the width of a column in dots and in letters
LONGEST_WORD = 12  # of a schedule's words, in letters
LONGEST_SPAN = 3  # columns that the words of an arrow take at most
LINE, GAP, SCREEN = 15, 12, 800  # the heights of a line of text, of what is between two rows, and of a screen, in dots
KINDS = {'send': '', 'forge': 'forged: ', 'inject': 'injected: '}

# event: its number; node: of the boxes, or none; frames: those that are sent in it; boxes: what the node did
Shown = collections.namedtuple('Shown', 'event node frames boxes')

# A row of the chart: the arcs in it, and the number of lines of its highest text
Row = collections.namedtuple('Row', 'arcs lines')


def shown_events(history: Any, first: Optional[int], last: Optional[int], only: Any) -> Any:
    """Yields the events from the first to the last that have anything to draw, of some nodes where these are given."""
    sent = collections.defaultdict(list)
    for frame in history.frames:
        sent[frame.event].append(frame)
    for event in sorted(it for it in history.events if max(first, 1) <= it <= last):
        node = history.node_of(history.events[event])
        frames = [it for it in sent[event] if not only or {it.sender, *history.targets(it)} & set(only)]
        boxes = [] if node is None or (only and node not in only) else histories.boxes(history, event)
        if frames or boxes:
            yield Shown(event, node, frames, boxes)


def clean(text: str) -> str:
    """Returns a text as it may be in a label: mscgen's language has no sign for a quote that is one."""
    return text.replace('\\', '/').replace('"', "'")


def cut(word: str) -> str:
    """Returns a word of a schedule, or the first digits of a long one."""
    return word if len(word) <= LONGEST_WORD else word[:8] + '..'


def wrap(texts: List[str], span: int) -> List[str]:
    """Returns texts in lines that are no longer than some columns."""
    width = LETTERS * min(span, LONGEST_SPAN)
    return [line for text in texts for line in textwrap.wrap(text, width, break_on_hyphens=False) or ['']]


def arc(source: str, sign: str, to: str, lines: List[str], **attributes: str) -> str:
    """Returns an arc: from, sign, to, label and attributes."""
    label = '\\n'.join(clean(line) for line in lines)
    more = ''.join(f', {name}="{value}"' for name, value in attributes.items())
    return f'{source} {sign} {to} [label="{label}"{more}]'


def colour_of(verdicts: List[histories.Verdict]) -> str:
    """Green where somebody accepted the frame, red where it was only refused, grey where nobody judged it."""
    return GREEN if any(it.reason is None for it in verdicts) else RED if verdicts else GREY


def around_arrow(above: List[str], below: List[str]) -> List[str]:
    """Returns the lines of a label whose middle one is empty: the arrow goes there."""
    size = max(len(above), len(below))
    return [''] * (size - len(above)) + above + [''] + below + [''] * (size - len(below))


class Chart:
    """The rows of one chart."""

    def __init__(self, history: histories.History, shown: List[Shown], names: List[Optional[str]]) -> None:
        self.history, self.shown = history, shown
        self.columns = {name: place for place, name in enumerate(names)}

    def name(self, node: str) -> str:
        """Returns how the chart calls the column of a node, or of nobody: node names may be words of its language."""
        return f'n{self.columns[node]}'

    def fate(self, frame: Any, node: str) -> List[str]:
        """Returns in words what a node made of a frame."""
        return [
            f'{histories.deed(it.reason)} at {it.event}' + ('' if it.reason is None else f': {it.reason}')
            for it in self.history.verdicts[frame.number]
            if it.node == node
        ]

    def frame_rows(self, frame: Any) -> List[Row]:
        """Returns the rows of a frame: one for each node to which an arrow goes, with what it carries in the first."""
        (first, *more), counters = self.history.reader.describe(frame.event, frame.data)
        texts = [f'{frame.number} {KINDS[frame.kind]}{first}', *more]
        targets = self.history.targets(frame)
        if not targets:
            lines = wrap([*texts, '; '.join([*counters, self.history.fate(frame)])], 1)
            source = self.name(frame.sender)
            colour = colour_of(self.history.verdicts[frame.number])
            return [Row([arc(source, 'rbox', source, lines, textcolour=colour)], len(lines))]
        heads = [(texts, counters)] + [([f'{frame.number}'], [])] * (len(targets) - 1)
        return [self.arrow_row(frame, node, *head) for node, head in zip(targets, heads)]

    def arrow_row(self, frame: Any, node: str, texts: List[str], counters: List[str]) -> Row:
        """Returns the row of a frame to one node: what it carries is above the arrow, what became of it below."""
        span = abs(self.columns[node] - self.columns[frame.sender])
        verdicts = [it for it in self.history.verdicts[frame.number] if it.node == node]
        fate = ', '.join(self.fate(frame, node)) if verdicts else self.history.unjudged(frame)
        lines = around_arrow(wrap(texts, span), wrap(['; '.join([*counters, fate])], span))
        colour = colour_of(verdicts)
        sign = '=>' if verdicts else '-x'
        return Row(
            [arc(self.name(frame.sender), sign, self.name(node), lines, linecolour=colour, textcolour=colour)],
            len(lines),
        )

    def box_row(self, node: str, box: histories.Box) -> Row:
        """Returns the row of a box at a node."""
        shape, colour = SHAPES[box.kind]
        lines = wrap(box.texts, 1)
        return Row([arc(self.name(node), shape, self.name(node), lines, textbgcolour=colour)], len(lines))

    def event_rows(self, shown: Shown) -> List[Row]:
        """Returns the rows of an event. The first has its number, and its words where the schedule is known."""
        rows = [self.box_row(shown.node, box) for box in shown.boxes] + [
            row for it in shown.frames for row in self.frame_rows(it)
        ]
        words = self.history.schedule.events.get(shown.event, []) if self.history.schedule else []
        lines = wrap([' '.join([str(shown.event), *(cut(word) for word in words)])], 1)
        mark = arc('event', 'box', 'event', lines, linecolour='white')
        return [Row([mark, *rows[0].arcs], max(rows[0].lines, len(lines))), *rows[1:]]

    def head(self, node: str) -> List[str]:
        """Returns the lines of the head of a column."""
        it = next((it for it in self.history.nodes if it.name == node), None)
        return ['outside', 'forged, injected'] if it is None else [it.name, f'{it.role} {it.short}']

    def head_row(self) -> Row:
        """Returns the heads once more, as a row of boxes."""
        arcs = [arc('event', 'box', 'event', ['event'], linecolour='white')]
        arcs += [
            arc(self.name(node), 'box', self.name(node), self.head(node), linecolour=HEAD_EDGE, textbgcolour=HEAD)
            for node in self.columns
        ]
        return Row(arcs, 2)

    def rows(self) -> Iterator[Row]:
        """Yields all rows. Before an event that begins below a screen's end, the heads come again."""
        height = 0
        for shown in self.shown:
            rows = self.event_rows(shown)
            if height > SCREEN:
                yield self.head_row()
                height = 0
            height += sum(LINE * row.lines + GAP for row in rows)
            yield from rows

    def text(self) -> str:
        """Returns what mscgen reads."""
        entities = ['event [label="event", linecolour="white"]']
        entities += [
            f'{self.name(node)} [label="' + '\\n'.join(map(clean, self.head(node))) + '"]' for node in self.columns
        ]
        lines = [f'width="{COLUMN * (len(self.columns) + 1)}", arcgradient="0";', ', '.join(entities) + ';']
        lines += [', '.join(row.arcs) + ';' for row in self.rows()]
        return 'msc {\n  ' + '\n  '.join(lines) + '\n}\n'


def column_names(history: histories.History, shown: List[Shown], only: Optional[List[str]]) -> List[Optional[str]]:
    """Returns the nodes that are drawn, none for nobody: all, or those that have to do with the ones that are asked
    for."""
    used = {
        name
        for it in shown
        for name in ([it.node] if it.boxes else [])
        + [name for frame in it.frames for name in (frame.sender, *history.targets(frame))]
    }
    names = [node.name for node in history.nodes if not only or node.name in used or node.name in only]
    return names + ([None] if None in used else [])


def make_chart(
    history: histories.History, first: int = 1, last: int = sys.maxsize, only: Optional[List[str]] = None
) -> str:
    """Returns the chart of the events from the first to the last, of some nodes where these are given, as mscgen reads
    it."""
    unknown = sorted(set(only or []) - {node.name for node in history.nodes})
    if unknown:
        raise Stop(
            f'there is no node {unknown[0]}; the nodes are {", ".join(node.name for node in history.nodes)}', WRONG_USE
        )
    shown = list(shown_events(history, first, last, only))
    if not shown:
        raise Stop('none of these events have anything to draw', WRONG_USE)
    return Chart(history, shown, column_names(history, shown, only)).text()
