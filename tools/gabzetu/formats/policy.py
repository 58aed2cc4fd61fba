"""The rules of docs/POLICY.md, row by row, and which rule answered an event.

The rows are read from the tables of that page, which is their one source. Only the words that the page doesn't have
are here: whole sentences for people, and what a detail means."""
import functools
import os
import re
from typing import Dict, List, Optional, Tuple

from .. import TOP
from ..errors import WRONG_INPUT, Stop

PAGE = 'docs/POLICY.md'
LAYERS = ('nwk', 'aps')
Row = Tuple[str, ...]


@functools.lru_cache(maxsize=None)
def read_page() -> str:
    """Returns the page of the policy. Stops if it is missing."""
    path = os.path.join(TOP, *PAGE.split('/'))
    try:
        with open(path, encoding='utf-8') as file:
            return file.read()
    except OSError as error:
        raise Stop(f'{path}: {error.strerror}: the rules of the policy are read from it', WRONG_INPUT) from error


def tables_of(page: str, *head: str) -> List[List[Row]]:
    """Returns the rows of each table of a page whose first columns have these names, in order."""
    found = []
    for table in re.findall(r'(?:^\|.*\n)+', page, re.MULTILINE):
        rows = [tuple(it.strip() for it in line.strip('|').split('|')) for line in table.splitlines()]
        if rows[0][: len(head)] == head:
            found.append(rows[2:])
    return found


@functools.lru_cache(maxsize=None)
def events() -> Dict[Tuple[str, str], Row]:
    """Returns the rules of a node's own events: (event, of) -> (refused, in this order; otherwise)."""
    (rows,) = tables_of(read_page(), 'Event', 'Of')
    return {(row[0], row[1]): row[2:4] for row in rows}


@functools.lru_cache(maxsize=None)
def commands() -> Dict[str, Row]:
    """Returns the rules of commands: name -> (taken by, in the form; refused, in this order; effect)."""
    (rows,) = tables_of(read_page(), 'Command', 'Taken by, in the form')
    return {row[0]: row[1:4] for row in rows}


@functools.lru_cache(maxsize=None)
def judging() -> Dict[str, Dict[str, str]]:
    """Returns what each reason means when a frame is judged, for each layer."""
    found = tables_of(read_page(), 'Reason', 'If')
    return {
        layer: {reason: words for named, words in rows for reason in named.split(', ')}
        for layer, rows in zip(LAYERS, found)
    }


# The same in whole sentences, where the page is brief.
PLAIN = {
    ('nwk', 'not-for-me'): "its destination is another node, or its source is the node itself",
    ('nwk', 'counter-max'): 'its counter is 2^32 - 1, the greatest one, which is never accepted',
    ('nwk', 'stale'): 'its counter is below the floor of its source: it was taken before, or could have been',
    ('nwk', 'bad-mic'): "it doesn't open under the key of its key sequence",
    ('aps', 'no-key'): 'the node has no live link key with its source',
    ('aps', 'counter-max'): 'its counter is 2^32 - 1, the greatest one, which is never accepted',
    ('aps', 'stale'): 'its counter is below the floor of the link key: it was taken before, or could have been',
    ('aps', 'bad-mic'): "it doesn't open under any live link key of its source",
}

# What a reason means wherever the rule has no words of its own for it.
REASONS = {
    'down': 'an event of a node without power is refused as down, but for a boot and a dump',
    'no-frame': 'a delivery of a frame that was never sent',
    'malformed': 'the bytes are not of the form that they must have',
    'not-for-me': 'the frame is for others',
    'unsecured': 'the frame has no security at the network layer',
    'no-key': 'the node has no usable active network key',
    'counter-max': 'the counter of the frame is the greatest one, which is never accepted',
    'stale': 'the counter of the frame is below the floor of its sender: it was taken before, or could have been',
    'bad-mic': 'the frame does not open under the key',
    'policy': "a command that a node doesn't take in its form is policy",
    'not-member': 'the device is not a live member of the network',
    'wrong-state': 'the node is not in a state in which it does this',
    'key-old': 'the node dropped this key before, and takes no dropped network key again',
    'keys-full': 'there is no room for another network key',
    'rows-full': 'there is no room for another link key',
    'key-in-use': 'the key is that of another row',
    'no-draw': 'the supply of keys (the draw lines) is used up',
    'counter-spent': 'the outgoing counter of a layer that the frame needs is at its end',
    'wrong-hash': 'the hash is not that of the offered key',
}

DETAILS = {'stale': 'the floor is {}', 'key-old': 'the key is that of row {}', 'key-in-use': 'the key is that of {}'}


# What becomes of a frame that is accepted and carries no command.
DATA = "What is accepted and isn't a command is done with"

# What holds of events that no rule answers.
NOTES = {
    'boot': 'A boot of a node that has power is wrong-state.',
    'reset': 'An event of a node without power is refused as down, whatever it is, but for a boot and a dump.',
}
CUT = (
    'The changes and their commit are there where the new bytes on the disk count. Nothing is accepted, sealed or '
    'sent in such an event (docs/FORMATS.md, "Power and disks").'
)


def clause_of(refused: str, reason: str) -> Optional[str]:
    """Returns the words of a rule's refusals on one reason, or none where it has none beside the reason itself."""
    for clause in refused.split('; '):
        head, _, rest = clause.rpartition(': ')
        if (rest or clause).split(' ')[0] == reason and len(clause.split(' ')) > 1:
            return clause
        if head and rest == reason:
            return clause
    return None


def rule_of_event(event: str, is_centre: bool) -> Optional[Tuple[Row, Row]]:
    """Returns the key and row of the rule of an event of a node's own, or none."""
    for of in ('all', 'centre' if is_centre else 'router, device', 'router'):
        if (event, of) in events() and not (of == 'router' and is_centre):
            return (event, of), events()[event, of]
    return None


def sentence_of_refusal(refused: Optional[str], layer: str, reason: str, is_judged: bool) -> str:
    """Returns what a refusal means: by the clause of its rule, else by the judging of frames, else in general.

    `refused` are the refusals of the rule, or none; `is_judged` says that no rule was asked, since the frame was
    refused before."""
    words = judging().get(layer, {})
    if is_judged and reason in words:
        return PLAIN.get((layer, reason), words[reason])
    clause: Optional[str] = clause_of(refused, reason) if refused else None
    return clause or str(REASONS.get(reason, reason))
