"""Makes the data of a report's page: its packets with what opened them, and where each key came from."""
from typing import Any, Dict, List, Optional, Tuple

from ..errors import UNREADABLE, Stop
from ..formats import anatomy, frames
from ..formats.reports import Heard, Reader, content_of
from .tables import Anatomies, Table

CAUSES = {
    'malformed': 'it is no frame, or of a kind that is not read (Green Power, inter-PAN)',
    'no-key': 'no known key opens it',
    'no-source': 'the EUI of its sender is not known: give an addr line',
    'not-secured': 'it is in clear',
}
UNKNOWN, ALL = -1, -2


class ReportPage:
    """The data of one page, as it is put together."""

    def __init__(self, report: Any, heard: Optional[Dict[int, Heard]]) -> None:
        self.report = report
        self.heard = heard or {place: Heard(place, None, None, None) for place in range(1, report.end['frames'] + 1)}
        self.reader = Reader(report, self.heard, {})
        self.texts, self.lanes, self.euis = Table(), Table(), {}
        self.anatomies = Anatomies(self.texts)

    def lane(self, pan: str, short: str) -> int:
        """Returns the place of the lane of a short address in a PAN."""
        return self.lanes.place((pan or '', short))

    def ends(self, place: int) -> Tuple[int, int]:
        """Returns the lanes from and to which a frame goes: -2 is everybody, -1 nobody knows whom."""
        heard, layers = self.heard[place], self.report.layers.get(place, [])
        if heard.data and len(heard.data) >= 8:
            to, source = (heard.data[at : at + 2][::-1].hex().upper() for at in (2, 4))
            is_all = int(to, 16) in anatomy.BROADCASTS
            self.note_eui(heard, source)
            return self.lane(heard.pan, source), ALL if is_all else self.lane(heard.pan, to)
        sources = [it['source'] for it in layers if 'source' in it]
        return self.lane(heard.pan, sources[0] if sources else '?'), UNKNOWN

    def note_eui(self, heard: Heard, source: str) -> None:
        """Notes the EUI of a sender whose NWK header shows it."""
        control = int.from_bytes(heard.data[:2], 'little')
        at = 8 + (8 if control & 1 << 11 else 0)
        if control & 1 << 12 and len(heard.data) >= at + 8:
            self.euis.setdefault((heard.pan or '', source), heard.data[at : at + 8][::-1].hex().upper())

    def first_content(self, place: int) -> tuple:
        """Returns the fields of the outermost layer whose content begins with APS, and whether that is a command
        without its header."""
        layers = self.report.layers.get(place, [])
        has_aps = any(it['kind'] == 'aps' for it in layers)
        for it in layers:
            if 'content' in it and (it['kind'] == 'aps' or has_aps):
                return it, it['kind'] == 'aps'
        return None, False

    def words(self, place: int) -> str:
        """Returns in words what a frame carries, as far as it is open."""
        data, (fields, is_command) = self.heard[place].data, self.first_content(place)
        if data:
            texts, counters = self.reader.describe(place, data)
        elif fields is None or (is_command and fields['label'] == 'data'):
            return 'closed' if fields is None else 'APS data or command'
        else:
            texts, counters = self.describe_content(place, content_of(fields), is_command)
        return ', '.join(texts) + (f' ({", ".join(counters)})' if counters else '')

    def describe_content(self, place: int, content: bytes, is_command: bool) -> Any:
        """Returns the same of the content of a layer, where no capture shows the frame."""
        try:
            return (self.reader.describe_command if is_command else self.reader.describe_aps)(place, content, [])
        except (frames.Malformed, IndexError):
            return [frames.counted(len(content))], []

    def layer(self, fields: dict) -> list:
        """Returns a layer: kind, the key that opened it or 0, the place of the words."""
        if 'content' not in fields:
            return [fields['kind'], 0, self.texts.place(fields['reason'])]
        label = f' {fields["label"]}' if 'label' in fields else ''
        return [
            fields['kind'],
            fields['k'],
            self.texts.place(f'key {fields["k"]}{label}, counter {fields["counter"]}'),
        ]

    def contents(self, place: int) -> Any:
        """Returns the sections of contents where no capture shows the frame."""
        fields, is_command = self.first_content(place)
        if fields is None:
            return []
        title = f'Content of the {fields["kind"].upper()} layer, sealed under key {fields["k"]}'
        return self.anatomies.place_all(
            anatomy.take_content_apart(
                self.reader, place, title, content_of(fields), is_command and fields['label'] != 'data'
            )
        )

    def frame(self, place: int) -> list:
        """Returns a frame: packet, time, lanes from and to, words, layers, sections, its lines."""
        heard, layers, (source, to) = self.heard[place], self.report.layers.get(place, []), self.ends(place)
        sections = self.anatomies.sections(self.reader, place, heard.data) if heard.data else self.contents(place)
        return [
            heard.number,
            heard.time,
            source,
            to,
            self.texts.place(self.words(place)),
            [self.layer(it) for it in layers],
            sections,
        ]

    def key(self, fields: dict) -> list:
        """Returns a key: number, digits, the place of the frame that it was found in or -1, the round, the keys that
        opened that frame."""
        place = fields.get('frame')
        if fields['origin'] == 'given' or place not in self.heard:
            return [fields['k'], fields['key'], -1, 0, []]
        return [fields['k'], fields['key'], place - 1, fields['round'], self.openers(place, fields['key'])]

    def openers(self, place: int, key: str) -> List[int]:
        """Returns the keys that opened the layers of a frame, down to the one whose content shows a key."""
        opened = []
        for it in self.report.layers.get(place, []):
            if 'content' in it:
                opened.append(it['k'])
                if key in it['content']:
                    break
        return opened

    def data(self) -> dict:
        """Returns what the page gets, but for its title and text."""
        rows, keys = [self.frame(place) for place in sorted(self.heard)], [self.key(it) for it in self.report.keys]
        end = self.report.end
        lanes = [[pan, short, self.euis.get((pan, short), '')] for pan, short in self.lanes.things()]
        return {
            'kind': 'report',
            'lanes': lanes,
            'frames': rows,
            'keys': keys,
            'causes': CAUSES,
            'texts': self.texts.things(),
            'layouts': self.anatomies.layouts.things(),
            'hasCapture': any(it.data for it in self.heard.values()),
            'end': f'{end["frames"]} frames; {end["keys"]} keys; {end["rounds"]} rounds',
        }


def check_capture(report: Any, heard: List[Heard], path: str) -> None:
    """Stops where a capture can't be the one that a report is of."""
    if len(heard) != report.end['frames']:
        raise Stop(
            f'{path}: it has {len(heard)} frames, and the report is of {report.end["frames"]}; '
            'give the capture of which the report was made',
            UNREADABLE,
        )
    for place, layers in report.layers.items():
        is_clear = not secured(heard[place - 1].data)
        if layers[0].get('reason') == 'not-secured' and not is_clear or 'content' in layers[0] and is_clear:
            raise Stop(
                f'{path}: frame {place} is not the one of the report; give the capture of which the report was made',
                UNREADABLE,
            )


def secured(data: bytes) -> bool:
    """Returns whether a frame has a sealed NWK layer."""
    try:
        return frames.read_nwk(data).payload is None
    except frames.Malformed:
        return False


def make_report(report: Any, heard: Optional[List[Heard]] = None, path: Optional[str] = None) -> Optional[dict]:
    """Returns the data of the page of a report, with what its capture shows where that is given."""
    if heard is not None:
        check_capture(report, heard, path)
    return ReportPage(report, dict(enumerate(heard, 1)) if heard else None).data()
