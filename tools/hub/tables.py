"""The tables of a centre, as its backup has them (docs/BACKUP.md): how the change lines of a transcript change them,
and which change lines lead from some tables to others."""
import copy
import json
from typing import Iterator, List, Optional

ATTRIBUTES = ('provisional', 'unverified', 'verified')
GREATEST = 4_294_967_295


class Apart(Exception):
    """No changes lead from the tables to the others."""


def read(text: str) -> dict:
    """Returns the tables of a backup."""
    return json.loads(text)


def net_of(tables: dict, key: str) -> Optional[dict]:
    """Returns the network row of a key, or none."""
    return next((row for row in tables['nets'] if row['key'] == key), None)


def active_net(tables: dict) -> Optional[dict]:
    """Returns the active network row, or none."""
    return None if tables['active'] is None else tables['nets'][tables['active']]


def links_of(tables: dict, partner: str, key: Optional[str] = None) -> List[dict]:
    """Returns the link rows of a partner, those with a key where one is given."""
    return [row for row in tables['links'] if row['partner'] == partner and key in (None, row['key'])]


def live_links(tables: dict, partner: str) -> List[dict]:
    """Returns the link rows of a partner that are in use."""
    return [row for row in links_of(tables, partner) if row['live']]


# ---- what a change line does


def reserve(tables: dict, layer: str, limit: str) -> None:
    row = tables if layer == 'aps' else active_net(tables)
    name = 'aps' if layer == 'aps' else 'limit'
    if row is not None:
        row[name] = max(row[name], min(int(limit), GREATEST))
        row.update({} if layer == 'aps' else {'started': True})


def floor(tables: dict, layer: str, key: str, sender: str, value: str) -> None:
    if layer == 'aps':
        for row in links_of(tables, sender, key):
            row['floor'] = max(row['floor'], int(value))
        return
    row = net_of(tables, key)
    found = next((it for it in row['floors'] if it['sender'] == sender), None)
    if found is None:
        row['floors'].append({'floor': int(value), 'sender': sender})
        row['floors'].sort(key=lambda it: it['sender'])
    else:
        found['floor'] = max(found['floor'], int(value))


def drop(tables: dict, kind: str, *words: str) -> None:
    if kind == 'net':
        net_of(tables, words[0]).update(live=False, floors=[])
        return
    for row in links_of(tables, *words):
        row.update(live=False, told=False)


def install(tables: dict, key: str, sequence: str) -> None:
    if net_of(tables, key) is None:
        row = {'floors': [], 'key': key, 'limit': 0, 'live': True, 'sequence': int(sequence), 'started': False}
        tables['nets'].append(row)


def activate(tables: dict, key: str) -> None:
    tables['active'] = tables['nets'].index(net_of(tables, key))


def start(tables: dict, key: str, value: str) -> None:
    row = net_of(tables, key)
    row.update(started=True, limit=max(row['limit'], int(value)))


def put_link(tables: dict, partner: str, key: str, attribute: str) -> None:
    place, told = ATTRIBUTES.index(attribute), any(row['told'] for row in live_links(tables, partner))
    if not links_of(tables, partner, key):
        tables['links'].append({'partner': partner, 'key': key, 'code': False, 'floor': 0})
    for row in links_of(tables, partner, key):
        row.update(attribute=place, live=True, code=row['code'] or place == 0, told=told)


def put_pair(tables: dict, first: str, second: str, key: str) -> None:
    if not any((row['first'], row['second']) == (first, second) for row in tables['pairs']):
        tables['pairs'].append({'first': first, 'second': second, 'key': key})


def tell(tables: dict, device: str, told: bool) -> None:
    for row in live_links(tables, device):
        row['told'] = told


def remove(tables: dict, device: str) -> None:
    tables['pairs'] = [row for row in tables['pairs'] if device not in (row['first'], row['second'])]


def roll(tables: dict, word: str) -> None:
    tables['roll'] = word
    if word == 'sending':
        for row in tables['links']:
            row['told'] = False


DEEDS = {
    'reserve': lambda tables, words: reserve(tables, *words[1:]),
    'floor': lambda tables, words: floor(tables, *words[1:]),
    'drop': lambda tables, words: drop(tables, *words[1:]),
    'install': lambda tables, words: install(tables, *words[1:]),
    'active': lambda tables, words: activate(tables, *words[1:]),
    'start': lambda tables, words: start(tables, *words[1:]),
    'row': lambda tables, words: put_link(tables, *words[1:]),
    'pair': lambda tables, words: put_pair(tables, *words[1:]),
    'roll': lambda tables, words: roll(tables, *words[1:]),
    'live': lambda tables, words: tell(tables, words[0], False),
    'removed': lambda tables, words: remove(tables, words[0]),
    'told': lambda tables, words: tell(tables, words[0], True),
    'untold': lambda tables, words: tell(tables, words[0], False),
}


def change(tables: dict, line: str) -> None:
    """Does to the tables what a line of a transcript says, the event's number left out. Other lines do nothing."""
    kind, *words = line.split(' ')
    if kind in DEEDS:
        DEEDS[kind](tables, words)


def changed(tables: dict, lines: List[str]) -> dict:
    """Returns the tables after lines of a transcript, the numbers of events left out."""
    found = copy.deepcopy(tables)
    for line in lines:
        change(found, line)
    return found


# ---- which change lines lead from tables to others


def limits_between(old: dict, new: dict, name: str) -> Iterator[str]:
    """Yields the reserve lines: a limit of the row that was active, and that of the application support layer."""
    row = active_net(old)
    after = None if row is None else net_of(new, row['key'])
    if after is not None and after['limit'] > row['limit']:
        yield f"reserve {name} nwk {after['limit']}"
    if new['aps'] > old['aps']:
        yield f"reserve {name} aps {new['aps']}"


def floors_between(old: dict, new: dict, name: str) -> Iterator[str]:
    """Yields the floor lines, of network rows and then of link rows."""
    for row in new['nets']:
        before = net_of(old, row['key'])
        kept = {} if before is None else {it['sender']: it['floor'] for it in before['floors']}
        for it in row['floors']:
            if it['floor'] > kept.get(it['sender'], 0):
                yield f"floor {name} nwk {row['key']} {it['sender']} {it['floor']}"
    for row in new['links']:
        earlier = links_of(old, row['partner'], row['key'])
        if row['floor'] > (earlier[0]['floor'] if earlier else 0):
            yield f"floor {name} aps {row['key']} {row['partner']} {row['floor']}"


def draws_between(old: dict, new: dict) -> Iterator[str]:
    """Yields a draw line for each key that is new and isn't that of an install code."""
    known = {row['key'] for part in ('nets', 'links', 'pairs') for row in old[part]}
    fresh = [row['key'] for row in new['nets']] + [row['key'] for row in new['links'] if not row['code']]
    for key in dict.fromkeys(fresh + [row['key'] for row in new['pairs']]):
        if key not in known:
            yield f'draw {key}'


def drops_between(old: dict, new: dict, name: str) -> Iterator[str]:
    """Yields the drop lines."""
    for row in old['nets']:
        after = net_of(new, row['key'])
        if row['live'] and after and not after['live']:
            yield f"drop {name} net {row['key']}"
    for row in old['links']:
        later = links_of(new, row['partner'], row['key'])
        if row['live'] and later and not later[0]['live']:
            yield f"drop {name} link {row['partner']} {row['key']}"


def nets_between(old: dict, new: dict, name: str) -> Iterator[str]:
    """Yields the lines of new network keys, of the active one and of the first counter of a key."""
    for row in new['nets']:
        if net_of(old, row['key']) is None:
            yield f"install {name} {row['key']} {row['sequence']}"
    row, before = active_net(new), active_net(old)
    if row is not None and (before is None or before['key'] != row['key']):
        yield f"active {name} {row['key']}"
        if row['started'] and not (net_of(old, row['key']) or {'started': False})['started']:
            yield f"start {name} {row['key']} {row['limit']}"


def links_between(old: dict, new: dict, name: str) -> Iterator[str]:
    """Yields the lines of link rows that are new, in use again, or have another attribute, and those of pairs."""
    for row in new['links']:
        before = links_of(old, row['partner'], row['key'])
        same = before and (before[0]['live'], before[0]['attribute']) == (True, row['attribute'])
        if row['live'] and not same:
            yield f"row {name} {row['partner']} {row['key']} {ATTRIBUTES[row['attribute']]}"
    for row in new['pairs']:
        if row not in old['pairs']:
            yield f"pair {name} {row['first']} {row['second']} {row['key']}"


def states_between(old: dict, new: dict, name: str) -> Iterator[str]:
    """Yields the lines of devices that became live or were removed, of the rollover, and of who was told."""
    partners = list(dict.fromkeys(row['partner'] for row in new['links']))
    was, now = ([it for it in partners if live_links(tables, it)] for tables in (old, new))
    yield from (f'live {it}' for it in now if it not in was)
    yield from (f'removed {it}' for it in was if it not in now)
    if old['roll'] != new['roll']:
        yield f"roll {name} {new['roll']}"
    restarted = (old['roll'], new['roll']) == ('idle', 'sending')
    for it in now:
        before = it in was and not restarted and any(row['told'] for row in live_links(old, it))
        after = any(row['told'] for row in live_links(new, it))
        if before != after:
            yield f"{'told' if after else 'untold'} {it}"


def came_back(old: dict, new: dict) -> Optional[str]:
    """Returns the device that is a member again by a link key that was dropped, or None.

    Only a device that is provisioned takes a dropped row again, and then as provisional. So the store was restored."""
    for row in new['links']:
        before = links_of(old, row['partner'], row['key'])
        if before and row['live'] and row['attribute'] and not before[0]['live']:
            return row['partner']
    return None


def between(old: dict, new: dict, name: str) -> List[str]:
    """Returns the change lines that lead from tables to others, in the order of a group; none where they are equal.

    Raises Apart if no changes lead there: tables never lose a row, and no limit falls."""
    lines = lines_between(old, new, name)
    if changed(old, lines) != new:
        raise Apart
    return lines


def lines_between(old: dict, new: dict, name: str) -> List[str]:
    """Returns the change lines for what is new in tables, in the order of a group."""
    return [
        *limits_between(old, new, name),
        *floors_between(old, new, name),
        *draws_between(old, new),
        *drops_between(old, new, name),
        *nets_between(old, new, name),
        *links_between(old, new, name),
        *states_between(old, new, name),
    ]
