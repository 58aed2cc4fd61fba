"""Transcripts of what a capture shows, which `tc audit` judges: it alone says that a claim is broken."""
from typing import Iterable, List, Tuple

from ..errors import Stop
from ..formats.words import GREATEST
from ..program import run_tc
from .sealed import Sealed

SOUND, BROKEN = 0, 10
SOMEBODY, PARTNER = '00124B0000000001', '00124B0000000002'
NETWORK_KEY = 1
MOST_ACCEPTS = 20000


def ask(lines: List[str]) -> Tuple[int, str]:
    """Returns the status and the answer of `tc audit` on the lines of a transcript."""
    ran = run_tc(['audit'], ('\n'.join(lines) + '\n').encode('ascii'))
    words = ran.output.decode('ascii', 'replace').strip()
    if ran.status not in (SOUND, BROKEN):
        raise Stop(f'tc audit ended with status {ran.status} on what the capture shows: {words}', abs(ran.status))
    return ran.status, words


def accept_lines(event: int, name: str, it: Sealed) -> List[str]:
    """Returns the lines of an event in which a node accepts a layer, after it stored the floor above its counter."""
    floor = f'{event} floor {name} {it.layer} {it.key} {it.source} {min(it.counter + 1, GREATEST)}'
    return [floor, f'{event} commit {name}', f'{event} accept {name} {it.term()}']


def end_line(events: int, seals: int, accepts: int, is_ideal: bool) -> str:
    """Returns the end line of a transcript without refusals, which says that no key went outside."""
    return f'end {events} {seals} {accepts} 0 {"yes" if is_ideal else "no"} yes'


def counter_of_second(first: Sealed, second: Sealed) -> Tuple[bool, str]:
    """Returns whether tc says that the second counter isn't above the first (claim 2), and its answer."""
    head = [f'0 node w centre {SOMEBODY} 0000 1 1', *accept_lines(1, 'w', first)]
    status, words = ask([*head, f'2 accept w {second.term()}', end_line(2, 0, 2, False)])
    return (status == BROKEN and words == f'broken {len(head) + 1} 2'), words


def nonce_of_second(first: Sealed, second: Sealed) -> Tuple[bool, str]:
    """Returns whether tc says that the second layer is sealed under the nonce of the first (claim 1), and its
    answer."""
    head = [f'0 node w centre {first.source} 0000 1 1']
    head += [f'0 given w net {first.key} 0'] if first.layer == 'nwk' else []
    head += [f'0 counter w {first.layer} {first.counter}'] if first.counter else []
    head += [f'1 reserve w {first.layer} {min(first.counter + 1, GREATEST)}', '1 commit w', f'1 seal w {first.term()}']
    head += ['1 send w 1 00']
    status, words = ask([*head, f'2 seal w {second.term()}', end_line(2, 2, 0, True)])
    return (status == BROKEN and words == f'broken {len(head) + 1} 1'), words


def key_goes_outside(carrier: Sealed, kind: int, key: str) -> Tuple[bool, str]:
    """Returns whether tc says that a sealed layer gives a key of the network to whoever knows the well-known key: the
    end line that denies it breaks claim 6. The answer comes with it."""
    given = f'0 given w net {key} 0' if kind == NETWORK_KEY else f'0 given w link {PARTNER} {key}'
    head = [f'0 node w centre {SOMEBODY} 0000 1 1', given, f'1 forge {carrier.term()}', '1 send - 1 00']
    status, words = ask([*head, end_line(1, 0, 0, True)])
    return (status == BROKEN and words == f'broken {len(head) + 1} 6'), words


def rest_is_sound(accepted: Iterable[Tuple[str, Sealed]]) -> str:
    """Returns the last answer of tc on the layers in which nothing was found, each with the name of its receiver.

    Stops if tc finds something in them that was passed over here."""
    words, part = '', []
    for it in accepted:
        part.append(it)
        if len(part) == MOST_ACCEPTS:
            words, part = judge_part(part), []
    return judge_part(part) if part or not words else words


def judge_part(part: List[Tuple[str, Sealed]]) -> str:
    """Returns the answer of tc on some accepted layers, or stops if they aren't sound."""
    names = dict.fromkeys(name for name, _ in part) or {'w': None}
    lines = [f'0 node {name} {"device" if place else "centre"} {SOMEBODY} 0000 1 1' for place, name in enumerate(names)]
    for event, (name, it) in enumerate(part, 1):
        lines += accept_lines(event, name, it)
    status, words = ask([*lines, end_line(len(part), 0, len(part), not part)])
    if status != SOUND:
        raise Stop(f'tc audit says `{words}` of frames in which nothing was found: please report this', BROKEN)
    return words
