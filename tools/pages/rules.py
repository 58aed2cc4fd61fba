"""Checks the rows of docs/POLICY.md against the definitions: each row must name the reasons that its rule gives.

A rule is a chain of tests, each with a reason, in crates/zb_model/specs. A reason after a comment that says that it
decides nothing may be left out of a row, and one that no rule gives must not be in it."""
import re
from typing import Dict, Iterable, Iterator, List, NamedTuple, Sequence, Set, Tuple

from gabzetu.formats.policy import tables_of

SPECS = 'crates/zb_model/specs'
# The head of a definition, such as `abbrev pub is_waiting : LinkKey → Bool`.
HEAD = re.compile(r'(?:(?:abbrev|unfoldable) )?(?:pub )?(\w+) : ')
# Comments which say that no run depends on the next reason, or on the next two.
IDLE = ((re.compile(r'\bneither\b.*\bdecides?\b'), 2), (re.compile(r'\bdecides nothing\b'), 1))
# Rules for checking each layer, which has a table without names of functions.
JUDGING = (('judge_nwk', 'nwk_command'), ('aps_part',))


class Found(NamedTuple):
    """The reasons of a definition: those that decide, and those that don't; and the names in it."""

    deciding: Set[str]
    idle: Set[str]
    names: Set[str]


def in_words(reason: str) -> str:
    """Returns a reason as pages write it: `no-key` for `NoKey`."""
    return re.sub(r'(?<!^)(?=[A-Z])', '-', reason).lower()


def reasons_of(data: str) -> List[str]:
    """Returns the reasons that Data.antt declares."""
    declared = re.search(r'^pub data Reason .*\n((?:  .*\n)+)', data, re.MULTILINE)
    return re.findall(r'^  (\w+) :', declared[1], re.MULTILINE) if declared else []


def definitions_of(text: str, reasons: Iterable[str]) -> Dict[str, Found]:
    """Returns what each definition of a file names."""
    form = re.compile(rf'(?<![\w.])(?:{"|".join(reasons)})\b')
    found: Dict[str, Found] = {}
    here, idle = Found(set(), set(), set()), 0
    for line in text.splitlines():
        head = HEAD.match(line)
        if head:
            here, idle = found.setdefault(head[1], Found(set(), set(), set())), 0
            continue
        code, comment, said = line.partition('--')
        if comment and not code.strip():
            idle = next((count for words, count in IDLE if words.search(said)), idle)
        here.names.update(re.findall(r'\w+', code))
        for reason in form.findall(code):
            (here.idle if idle else here.deciding).add(in_words(reason))
        if form.search(code):
            idle = max(idle - 1, 0)
    return found


def reached(found: Dict[str, Found], roots: Iterable[str]) -> Tuple[Set[str], Set[str]]:
    """Returns the reasons that some definitions and those below them give: those that decide, and all."""
    seen: Set[str] = set()
    left = list(roots)
    while left:
        name = left.pop()
        if name in found and name not in seen:
            seen.add(name)
            left += found[name].names
    deciding = set().union(*(found[it].deciding for it in seen))
    return deciding, deciding.union(*(found[it].idle for it in seen))


def named_in(cell: str) -> List[str]:
    """Returns the reasons that a cell of refusals names, in order, such as `no-key; wrong-state in rejoining`."""
    clauses = (it.rpartition(': ')[2].split(' ')[0] for it in cell.split('; '))
    return [it for it in clauses if it and it != 'none']


def differences(named: Sequence[str], deciding: Set[str], known: Set[str], order: Sequence[str]) -> Iterator[str]:
    """Yields how the reasons of a row differ from those of its rule, and from the order of all reasons."""
    for reason in sorted(deciding - set(named)):
        yield f"it lacks {reason}, which its rule gives"
    for reason in sorted(set(named) - known):
        yield f"it has {reason}, which its rule doesn't give"
    places = [order.index(it) for it in named if it in order]
    if places != sorted(places):
        yield 'its reasons are in another order than that of all rules'


def order_of(page: str) -> List[str]:
    """Returns all reasons in the order in which every rule tries them, as the page has it."""
    found = re.search(r'tried in one order everywhere:\n1\. (.*);\n2\. (.*)\.', page)
    return ', '.join(found.groups()).split(', ') if found else []


def rows_of(page: str) -> Iterator[Tuple[str, str, str]]:
    """Yields each rule that has a row: its name on the page, its refusals, and its function."""
    for head, place in ((('Event', 'Of'), 2), (('Command', 'Taken by, in the form'), 2)):
        for table in tables_of(page, *head):
            for row in table:
                function = re.search('`(.*?)`', row[-1])
                yield ', '.join(row[: 2 if head[0] == 'Event' else 1]), row[place], function[1] if function else ''


def wrong_rows(page: str, specs: Dict[str, str]) -> Iterator[str]:
    """Yields what is wrong with the rows of the policy's page, by the definitions: `specs` has each file's text."""
    reasons, order = reasons_of(specs['Data']), order_of(page)
    rules: Dict[str, Found] = {}
    for name in ('Rules', 'OwnEvents', 'Commands'):
        rules.update(definitions_of(specs[name], reasons))
    for name, refused, function in rows_of(page):
        if function not in rules:
            yield f"the row of '{name}' names the function {function or '(none)'}, and no rule is called so"
            continue
        # that a command must have a valid form is said once for all of them
        deciding, known = (it - {'policy'} for it in reached(rules, [function]))
        for why in differences(named_in(refused), deciding, known, order):
            yield f"the row of '{name}': {why}"
    yield from wrong_judging(page, specs, reasons)


def wrong_judging(page: str, specs: Dict[str, str], reasons: List[str]) -> Iterator[str]:
    """Yields what is wrong with the tables on how frames are checked."""
    rules = {**definitions_of(specs['Judging'], reasons), **definitions_of(specs['Answer'], reasons)}
    tables = tables_of(page, 'Reason', 'If')
    # a command is refused after its layer was accepted
    order = [it for it in order_of(page) if it != 'policy']
    if len(tables) != len(JUDGING):
        yield f'there are {len(tables)} tables on the judging of frames, and not {len(JUDGING)}'
    for table, roots in zip(tables, JUDGING):
        named = [it for row in table for it in row[0].split(', ')]
        for why in differences(named, *reached(rules, roots), order):
            yield f"the table of `{roots[0]}`: {why}"
