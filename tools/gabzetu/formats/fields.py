"""Names the fields of the lines that tc writes, as docs/FORMATS.md names them: transcripts, reports, campaigns,
lists of stores.

Each reader takes the words of a line and returns a dict whose `kind` is the kind of the line, or none where the line
is no such line. Counters and numbers are numbers, `yes` and `no` are true and false, all else is text as it was
written."""
from typing import Dict, List, Optional, Union

from .numbers import read_number

NUMBERS = {
    'limit',
    'value',
    'seq',
    'sequence',
    'counter',
    'frame',
    'out',
    'in',
    'n',
    'k',
    'round',
    'line',
    'claim',
    'place',
    'run',
    'events',
    'seals',
    'accepts',
    'refusals',
    'frames',
    'keys',
    'rounds',
    'packets',
    'badcheck',
    'other',
    'count',
}
TRUTHS = {'yes': True, 'no': False}

TERM = 'layer label base source counter control header content'
END = 'events seals accepts refusals ideal private'

# The fields after the kind. `row=net` is the very word net, as the field row; `=key` is a word that is no field. Of
# several forms the first that fits counts.
TRANSCRIPT = {
    'node': ['name role eui short out in'],
    'given': ['node row=net key seq', 'node row=link partner key'],
    'counter': ['node layer n'],
    'reserve': ['node layer limit'],
    'floor': ['node layer key sender value'],
    'draw': ['key'],
    'drop': ['node row=net key', 'node row=link partner key'],
    'install': ['node key seq'],
    'active': ['node key'],
    'start': ['node key value'],
    'row': ['node partner key attribute'],
    'pair': ['node first second key'],
    'state': ['node state'],
    'live': ['device'],
    'removed': ['device'],
    'roll': ['node roll'],
    'told': ['device'],
    'untold': ['device'],
    'commit': ['node'],
    'accept': [f'node {TERM}'],
    'refuse': ['node layer reason', 'node layer reason detail'],
    'seal': [f'node {TERM}'],
    'forge': [TERM],
    'send': ['node frame bytes'],
    'inject': ['frame bytes'],
    'stopped': ['node'],
    'down': ['node cause'],
    'boot': ['node'],
    'dump': ['node hex'],
}

# What a line of each kind means, in the order of docs/FORMATS.md.
MEANINGS = {
    'node': 'A node, with its role, its two addresses and its two blocks. This line and the next two have event 0.',
    'given': 'A key that a node holds at the start: a network key with its sequence, or the link key of a code.',
    'counter': 'The number from which a node counts its frames of a layer, where that is not 0.',
    'reserve': 'Outgoing counters of a layer below LIMIT are stored as used. After a boot the node goes on from LIMIT.',
    'floor': 'The least counter that is taken from a sender under a key, as it is stored.',
    'draw': 'The next key of the supply is used.',
    'drop': 'A network key or a link key is dropped.',
    'install': 'A node gets a network key.',
    'active': 'The network key under which a node sends from now on.',
    'start': 'The first counter under a network key that becomes active for the first time.',
    'row': 'A link key is new, comes back, or has another attribute: provisional, unverified or verified.',
    'pair': 'The centre makes a key of their own for two devices.',
    'state': 'How far a router or device is: fresh, knocked, joined, offered, confirmed, rejoining or gone.',
    'live': 'The centre admits a device.',
    'removed': 'The centre removes a device.',
    'roll': 'A rollover of the network key begins (sending), or is over (idle).',
    'told': 'The new network key went out to a device.',
    'untold': 'A device has yet to get the new network key.',
    'commit': 'The changes before it in this event are stored on the disk of the node.',
    'accept': 'A node opened a layer of a frame and took it: under which key, from whom, and what is in it.',
    'refuse': 'A node refuses a frame at a layer, or an event. Some reasons have a detail.',
    'seal': 'A node sealed a layer of a frame.',
    'forge': 'An outsider sealed a layer of a frame under a key that it knows.',
    'send': 'A frame goes on the air. NODE is - for a forged one.',
    'inject': 'Bytes of an outsider go on the air.',
    'stopped': 'The power of a node fell in the midst of the event.',
    'down': 'A node has no power: after a reset, or since its disk failed.',
    'boot': 'A node has power again, and has read its disk.',
    'dump': 'The record that the disk of a node holds.',
    'end': 'The last line: how many events, seal, accept and refuse lines there are. IDEAL is yes where all that was '
    'accepted had been sealed or forged before. PRIVATE is yes where outsiders forged only under keys known outside, '
    'and passed on no network key.',
}

# Of a report, after the frame's number: a layer that opened under key K, and one that didn't with its reason.
LAYERS = {
    'nwk': ['=key k source counter content', 'reason'],
    'aps': ['=key k label source counter content', 'reason'],
    'inner': ['=key k label source counter content', 'reason'],
}

REPORT = {
    'key': ['k key origin=found frame round', 'k key origin=given'],
    'end': ['frames keys rounds'],
    'packets': ['packets badcheck other'],
}

# What each command of `admin` writes.
STORE = {
    'net': ['place key sequence word'],
    'link': ['place partner key attribute word'],
    'send': ['bytes'],
    'ok': ['line'],
    'refuse': ['line reason', 'line reason detail'],
}

VERDICTS = {'sound': ['seals accepts word'], 'broken': ['line claim']}


def shown(form: str) -> str:
    """Returns the words of a form as help shows them: a name in capitals, a very word as it is."""
    return ' '.join(it.partition('=')[2] or it.upper() for it in form.split())


def value_of(name: str, word: str) -> Union[int, str]:
    """Returns a word as the value of its field."""
    if name in NUMBERS and read_number(word) is not None:
        return read_number(word)
    return TRUTHS.get(word, word) if name in ('ideal', 'private') else word


def fields_of(form: str, words: List[str]) -> Optional[dict]:
    """Returns the fields of words by a form, or none where they don't fit."""
    names = form.split()
    if len(names) != len(words):
        return None
    fields = {}
    for place, word in zip(names, words):
        name, is_fixed, fixed = place.partition('=')
        if is_fixed and word != fixed:
            return None
        if name:
            fields[name] = value_of(name, word)
    return fields


def named(head: dict, forms: List[str], words: List[str]) -> Optional[dict]:
    """Returns the fields of `head` and those of the words by the first form that fits, or none."""
    for form in forms:
        fields = fields_of(form, words)
        if fields is not None:
            return {**head, **fields}
    return None


def read_by(table: Dict[str, List[str]], words: List[str]) -> Optional[dict]:
    """Returns the fields of a line whose first word is its kind, by a table of forms, or none."""
    return named({'kind': words[0]}, table.get(words[0], []), words[1:]) if words else None


def read_numbered(name: str, table: Dict[str, List[str]], words: List[str]) -> Optional[dict]:
    """Returns the fields of a line that begins with a number, which is the field `name`, and its kind; or none."""
    if len(words) < 2 or read_number(words[0]) is None:
        return None
    return named({name: read_number(words[0]), 'kind': words[1]}, table.get(words[1], []), words[2:])


def read_transcript_line(words: List[str]) -> Optional[dict]:
    """Returns the fields of a line of a transcript: `event`, `kind` and those of its kind. The end line has no
    event."""
    return read_by({'end': [END]}, words) or read_numbered('event', TRANSCRIPT, words)


def read_report_line(words: List[str]) -> Optional[dict]:
    """Returns the fields of a line of an inspector's report, that of `packets` included."""
    return read_by(REPORT, words) or read_numbered('frame', LAYERS, words)


def read_campaign_line(words: List[str]) -> Optional[dict]:
    """Returns the fields of a line of a campaign: of a run or of the total."""
    return read_by({'total': ['count seals accepts refusals']}, words) or read_numbered('run', {'end': [END]}, words)


def read_verdict_line(words: List[str]) -> dict:
    """Returns the fields of the answer of an audit."""
    return read_by(VERDICTS, words)


def read_store_line(words: List[str]) -> dict:
    """Returns the fields of a line that a script on a store writes. A backup is the field `backup`, as text."""
    if words and words[0].startswith('{'):
        return {'kind': 'backup', 'backup': ' '.join(words)}
    return read_by(STORE, words)


def read_key_line(words: List[str]) -> Optional[dict]:
    """Returns the field of the link key that an install code has."""
    return named({'kind': 'key'}, ['key'], words)


def read_text_line(words: List[str]) -> Optional[dict]:
    """Returns a line of a schedule: its kind, which is the first word, and the other words."""
    return {'kind': words[0], 'words': words[1:]} if words else None
