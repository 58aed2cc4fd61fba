"""What a broken claim of an audit is about: the earlier lines that a line goes against, and what doesn't add up."""
import collections
from typing import Any, List

# What may not add up of a line, by its kind, for claim 4.
SUMS = {
    'seal': [
        "its node has no `0 node` line before it",
        "its counter isn't the next one of its node and layer",
        "at NWK, its key isn't the active one",
        'the next counter is the limit, and no reserve line of its layer comes before it ' 'in the group',
    ],
    'reserve': [
        "its node has no `0 node` line before it",
        "the next counter isn't at the limit yet",
        "its value isn't one outgoing block above the next counter",
        'no seal of its layer follows in the group',
    ],
    'accept': ["its counter isn't below the stored floor, and the group has no floor line for it"],
    'floor': [
        "its node has no `0 node` line before it",
        "its value isn't one incoming block above each counter that the group accepts",
        'an accepted counter is below the stored floor, so no floor was due',
        'the group accepts no frame that it is for',
    ],
    'start': [
        "its node has no `0 node` line before it",
        "the key started before, or isn't activated in the group",
        "its value isn't the next counter (or 0 from 2147483648 on)",
    ],
    'active': ['the key is activated and never started: a start line of it is missing'],
}
MOST = 4


def number(line: Any, name: str) -> int:
    """Returns the number in a field of a line, and -1 where it is none."""
    value = line.fields.get(name)
    return value if isinstance(value, int) else -1


def same(one: dict, other: dict, keys: List[str]) -> bool:
    """Returns whether two lines have the same values in some fields."""
    return all(one.get(key) == other.get(key) for key in keys)


def earlier(lines: list, line: Any, kinds: List[str], keys: List[str]) -> list:
    """Returns the lines of some kinds before a line that have the same values as it."""
    return [
        it
        for it in lines
        if it.number < line.number and it.fields and it.fields['kind'] in kinds and same(it.fields, line.fields, keys)
    ]


def nonces(lines: list, line: Any) -> list:
    """Returns the first seal before a line with the same key and nonce."""
    return earlier(lines, line, ['seal'], ['base', 'label', 'source', 'counter', 'control'])[:1]


def counters(lines: list, line: Any) -> list:
    """Returns the last accept line before a line whose counter isn't smaller."""
    found = earlier(lines, line, ['accept'], ['node', 'layer', 'base', 'source'])
    return [it for it in found if number(it, 'counter') >= number(line, 'counter')][-1:]


def sums(lines: list, line: Any) -> list:
    """Returns the last lines on the same node that a line of counters, limits, floors and starts goes back on."""
    keys = ['node', 'layer'] if 'layer' in line.fields else ['node', 'key']
    found = earlier(
        lines,
        line,
        ['reserve', 'seal', 'counter', 'floor', 'accept']
        if 'layer' in line.fields
        else ['install', 'active', 'start', 'given'],
        keys,
    )
    actives = earlier(lines, line, ['active', 'given', 'start'], ['node']) if line.fields['kind'] == 'seal' else []
    return sorted(set_of(found[-MOST:] + actives[-MOST:]), key=lambda it: it.number)


def set_of(lines: list) -> Any:
    """Returns lines without repeats."""
    return {it.number: it for it in lines}.values()


def removals(lines: list, line: Any) -> Any:
    """Returns the last removals before a line."""
    return [it for it in lines if it.number < line.number and it.fields and it.fields['kind'] == 'removed'][-MOST:]


def related(lines: list, line: Any, claim: int) -> list:
    """Returns the earlier lines that matter for a line that breaks a claim."""
    rules = {(1, 'seal'): nonces, (2, 'accept'): counters}
    if not line.fields:
        return []
    if claim == 4 and line.fields['kind'] in SUMS:
        return sums(lines, line)
    if claim == 5:
        return removals(lines, line)
    rule = rules.get((claim, line.fields['kind']))
    return rule(lines, line) if rule else []


def reasons(lines: list, line: Any, claim: int) -> List[str]:
    """Returns what may be wrong with a line, as sentences."""
    kind = line.fields['kind'] if line.fields else None
    if claim == 4:
        return SUMS.get(kind, [])
    if claim == 6:
        return reasons_of_end(lines, line)
    return []


def reasons_of_end(lines: list, line: Any) -> List[str]:
    """Returns what is wrong with the last line."""
    if line.fields is None or line.fields['kind'] != 'end':
        return ['the last line is no end line']
    if line.number < len(lines):
        return ['an end line comes before the last line']
    counts = collections.Counter(it.fields['kind'] for it in lines if it.fields)
    found = [('seals', counts['seal']), ('accepts', counts['accept']), ('refusals', counts['refuse'])]
    wrong = [
        f'it counts {line.fields[name]} {name}, and there are {count}'
        for name, count in found
        if line.fields[name] != count
    ]
    last = max((it.fields['event'] for it in lines if it.fields and 'event' in it.fields), default=0)
    if number(line, 'events') < last:
        wrong.append(f'it counts {line.fields["events"]} events, and there is an event {last}')
    return wrong or ['its two words are not those of the lines before it']
