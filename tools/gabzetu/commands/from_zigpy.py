"""gabzetu from-zigpy: a script that makes a centre's store from a coordinator backup."""
import argparse
import collections
import datetime
import json
from typing import Any, Iterator, List, Optional, Union

from ..errors import WRONG_USE, Stop
from ..formats.words import counted
from ..formats.zigpy import MOST_COUNTER, parse_backup
from ..opening import WELL_KNOWN
from ..output import keep_inputs, read_input, say, write_output
from ..stores import is_restored, try_script

SUMMARY = 'make a script for admin from a coordinator backup of zigpy, ZHA or Zigbee2MQTT'
DESCRIPTION = '''Makes a script for `gabzetu admin` from an open coordinator backup: of zigpy, ZHA, or Zigbee2MQTT
(coordinator_backup.json).

  gabzetu from-zigpy coordinator_backup.json -o import.script
  gabzetu admin hub.store import.script

The script has the coordinator as `centre`, the devices as `peer`s, and a `restore` line with the network key and the
link keys. What can't be carried is said on standard error. tc tries the script on a store of its own first: what the
store refuses is refused here.

SKIP is added to the frame counters, so that none comes twice (docs/ADMIN.md). Keep the old coordinator off.'''

A_DAY, UNKNOWN_AGE = 1000000, 10000000
OUT_BLOCK, IN_BLOCK = 1000, 16
MOST_PEERS, MOST_LINKS, MOST_NAMED = 63, 1024, 8
REFUSED = 5


def add_arguments(parser: argparse.ArgumentParser) -> None:
    """Adds the words of the command."""
    parser.add_argument('backup', metavar='BACKUP', help='the JSON file, or - for standard input')
    parser.add_argument(
        '--skip', metavar='N', type=int, help=f'what is added to the counters ({A_DAY} for each day since the backup)'
    )
    parser.add_argument('-o', '--output', metavar='OUT', help='write to this file, and not to standard output')


def days_since(made: datetime.datetime, now: datetime.datetime) -> int:
    """Returns the days since a time, the begun one included, at least 1."""
    return max(1, -((made - now) // datetime.timedelta(days=1)))


def choose_skip(given: Optional[int], made: Optional[datetime.datetime], now: datetime.datetime) -> int:
    """Returns what is added to the counters, and says where it comes from."""
    if given is not None:
        if not 0 <= given <= MOST_COUNTER:
            raise Stop(f'--skip is 0 to {MOST_COUNTER}', WRONG_USE)
        return given
    if made is None:
        say(
            f'gabzetu: the backup has no date: SKIP is {UNKNOWN_AGE}. '
            'Give --skip by the rule of docs/ADMIN.md where you know better.'
        )
        return UNKNOWN_AGE
    days = days_since(made, now)
    skip = min(days * A_DAY, MOST_COUNTER)
    say(f'gabzetu: the backup is of {made.date()}: SKIP is {skip}, {A_DAY} for each day (--skip, docs/ADMIN.md)')
    return skip


def some(names: Union[Iterator[Any], List[str]]) -> str:
    """Returns a list as text, of a long one the beginning."""
    names = list(names)
    return ', '.join(names[:MOST_NAMED]) + (f' and {len(names) - MOST_NAMED} more' if len(names) > MOST_NAMED else '')


def carried_devices(backup: Any) -> list:
    """Returns the devices whose link keys are carried, and says of the others why not."""
    without = [it.eui for it in backup.devices if it.link is None]
    well_known = [it.eui for it in backup.devices if it.link and it.link.key == WELL_KNOWN]
    if without:
        seeds = (
            f' The backup has {", ".join(backup.seeds)} in their place, which tc does not read.'
            if backup.seeds
            else ''
        )
        say(
            f'gabzetu: not carried: {counted(len(without), "device")} without a link key of its own, '
            f'as after a join by the well-known key. Admit each again by its install code: {some(without)}.{seeds}'
        )
    if well_known:
        say(
            f'gabzetu: not carried: {counted(len(well_known), "device")} under the well-known link key: '
            f'{some(well_known)}'
        )
    return [it for it in backup.devices if it.link and it.link.key != WELL_KNOWN]


def link_row(device: Any) -> dict:
    """Returns the row of a device's link key, as docs/BACKUP.md has it."""
    return {
        'attribute': 2,
        'code': False,
        'floor': device.link.received,
        'key': device.link.key,
        'live': True,
        'partner': device.eui,
        'told': False,
    }


def centre_backup(backup: Any, carried: list) -> dict:
    """Returns the backup of a centre: the network key is active, and the link keys are verified."""
    net = {
        'floors': [],
        'key': backup.key,
        'limit': backup.counter,
        'live': True,
        'sequence': backup.sequence,
        'started': True,
    }
    return {
        'active': 0,
        'aps': max([it.link.sent for it in carried], default=0),
        'links': [link_row(it) for it in carried],
        'nets': [net],
        'nwk': 0,
        'pairs': [],
        'roll': 'idle',
        'version': 3,
    }


def peer_lines(backup: Any, carried: list) -> List[str]:
    """Returns the `peer` lines: devices with carried keys first, as many as a script may have."""
    known = [
        it for it in [*carried, *(it for it in backup.devices if it not in carried)] if it.short not in (None, '0000')
    ]
    missing = [it.eui for it in backup.devices if it.short is None]
    if missing:
        say(f'gabzetu: no peer line for {counted(len(missing), "device")} without a short address: {some(missing)}')
    if len(known) > MOST_PEERS:
        say(
            f'gabzetu: no peer line for {counted(len(known) - MOST_PEERS, "device")}, '
            f'since a script has at most {MOST_PEERS}: {some(it.eui for it in known[MOST_PEERS:])}'
        )
    if known:
        say(
            'gabzetu: the backup does not say which devices are routers: each peer line says `router`. '
            'Change those that are not.'
        )
    return [f'peer n{it.short.lower()} router {it.eui} {it.short}' for it in known[:MOST_PEERS]]


def make_script(backup: Any, skip: int, carried: list) -> str:
    """Returns the text of the script."""
    text = json.dumps(centre_backup(backup, carried), separators=(',', ':'), sort_keys=True)
    return '\n'.join(
        [
            f'centre hub {backup.coordinator} {OUT_BLOCK} {IN_BLOCK}',
            *peer_lines(backup, carried),
            f'restore {skip} {text}',
            '',
        ]
    )


def shared_keys(carried: list) -> List[List[str]]:
    """Returns the lists of devices that have one link key."""
    owners = collections.defaultdict(set)
    for device in carried:
        owners[device.link.key].add(device.eui)
    return [sorted(euis) for euis in owners.values() if len(euis) > 1]


def repeated(values: Iterator[Any]) -> List[str]:
    """Returns the values that are there twice."""
    return [value for value, count in collections.Counter(values).items() if count > 1]


def likely_causes(backup: Any, carried: list) -> List[str]:
    """Returns what the store refuses of a backup, in words."""
    causes = [
        f'the devices {some(euis)} have one link key, and the store takes each key once'
        for euis in shared_keys(carried)
    ]
    addresses = repeated(it.eui for it in backup.devices) + repeated(it.short for it in backup.devices if it.short)
    causes += [f'two devices have the address {address}' for address in addresses]
    if len(carried) > MOST_LINKS:
        causes.append(f'it has {len(carried)} link keys, and the store takes {MOST_LINKS}')
    if backup.coordinator in [it.eui for it in backup.devices]:
        causes.append(f'the coordinator {backup.coordinator} is among the devices')
    return causes


def check(path: str, backup: Any, carried: list, script: str) -> None:
    """Stops where tc does not make a store from the script."""
    status, lines = try_script(script)
    if not is_restored(status, lines):
        causes = ''.join(f'\n  {cause}' for cause in likely_causes(backup, carried))
        raise Stop(
            f'{path}: the store refuses this backup: {lines[-1] if lines else f"status {status}"}{causes}', REFUSED
        )


def tell_rest(backup: Any, skip: int) -> None:
    """Says what of the network a centre's store doesn't keep."""
    if backup.notes:
        say('gabzetu: not carried: ' + ', '.join(f'{name} {value}' for name, value in backup.notes.items()))
    if backup.counter + skip > MOST_COUNTER:
        say(
            f'gabzetu: the counter {backup.counter} and SKIP are beyond the last counter: '
            'the centre will need a new network key to send'
        )


def run(arguments: argparse.Namespace) -> int:
    """Runs the command, and returns the exit status."""
    keep_inputs([arguments.backup], [arguments.output])
    backup = parse_backup(read_input(arguments.backup), arguments.backup)
    skip = choose_skip(arguments.skip, backup.made, datetime.datetime.now(datetime.timezone.utc))
    carried = carried_devices(backup)
    script = make_script(backup, skip, carried)
    check(arguments.backup, backup, carried, script)
    tell_rest(backup, skip)
    write_output(arguments.output, script, is_private=True)
    return 0
