"""gabzetu to-zigpy: a coordinator backup from the backup of a centre."""
import argparse
import datetime
import json
import re
from typing import Any, Callable, Dict, List, Optional, Tuple

from .. import read_version
from ..errors import UNREADABLE, WRONG_USE, Stop
from ..formats.words import counted
from ..formats.zigpy import CHANNELS, MOST_COUNTER, NO_EUI, NO_PAN, Backup, Device, Link, object_of, parse_json
from ..opening import WELL_KNOWN
from ..output import keep_inputs, read_input, say, write_output
from ..stores import is_restored, try_script
from .from_zigpy import A_DAY, REFUSED, some

SUMMARY = 'make a coordinator backup for zigpy, ZHA or Zigbee2MQTT from the backup of a centre'
DESCRIPTION = '''Makes an open coordinator backup, which zigpy, ZHA and Zigbee2MQTT read, from the line that `backup`
in a script of `admin` writes.

  gabzetu to-zigpy hub.backup --script hub.script --pan 1A62 --channel 15 -o coordinator_backup.json

A centre's store knows no radio: give PAN, extended PAN and channel. It knows no addresses but EUIs either: --script
names the script with the `centre` and `peer` lines. What can't be carried is said on standard error. A text that the
store refuses is refused here.

SKIP is added to the frame counters, so that none comes twice (docs/ADMIN.md). Keep the old centre off.'''

VERIFIED, WORDS = 2, {0: 'provisional', 1: 'unverified'}
ANY_CENTRE = '00124B00000000FE'


def digits_of(size: int) -> Callable[..., Any]:
    """Returns the type of a word of so many hexadecimal digits."""

    def read(word: str) -> Any:
        text = word.replace(':', '').upper()
        text = text[2:] if text.startswith('0X') else text
        if not re.fullmatch(f'[0-9A-F]{{{size}}}', text):
            raise Stop(f'{word!r} should be {size} hexadecimal digits', WRONG_USE)
        return text

    return read


def read_channel(word: str) -> int:
    """Returns the number of a channel."""
    if word not in map(str, CHANNELS):
        raise Stop(f'--channel {word}: channels are 11 to 26', WRONG_USE)
    return int(word)


def add_arguments(parser: argparse.ArgumentParser) -> None:
    """Adds the words of the command."""
    parser.add_argument('backup', metavar='BACKUP', help='what `backup` writes, or - for standard input')
    parser.add_argument(
        '--script', metavar='SCRIPT', help='a script of admin: its centre and peer lines say who has which address'
    )
    parser.add_argument('--pan', metavar='PAN', type=digits_of(4), help='the PAN of the network, 4 digits')
    parser.add_argument(
        '--extended-pan', metavar='PAN', type=digits_of(16), help='the extended PAN, 16 digits (the EUI of the centre)'
    )
    parser.add_argument('--channel', metavar='N', type=read_channel, help='the channel, 11 to 26')
    parser.add_argument(
        '--skip',
        metavar='N',
        type=int,
        default=A_DAY,
        help=f'what is added to the counters ({A_DAY}, enough for a day)',
    )
    parser.add_argument('-o', '--output', metavar='OUT', help='write to this file, and not to standard output')


def read_rows(path: str) -> dict:
    """Returns the rows of a backup that tc takes. Among the lines that `admin` wrote it is the last one that is a
    backup."""
    text = read_input(path).decode('utf-8', 'replace')
    lines = [line for line in text.splitlines() if line.startswith('{')]
    if len(lines) > 1 or not text.lstrip().startswith('{'):
        text = lines[-1] if lines else text
    rows = parse_json(text, path)
    if not isinstance(rows, dict) or 'nets' not in rows:
        raise Stop(f'{path}: this is no backup of a centre (docs/BACKUP.md)', UNREADABLE)
    line = json.dumps(rows, separators=(',', ':'), sort_keys=True)
    status, said = try_script(f'centre c {ANY_CENTRE} 4 2\nrestore 0 {line}\n')
    if not is_restored(status, said):
        raise Stop(f'{path}: the store refuses this backup: {said[-1] if said else f"status {status}"}', REFUSED)
    return rows


def read_addresses(path: Optional[str]) -> Tuple[str, Dict[str, str]]:
    """Returns the EUI of the centre, and the short addresses by EUI, that a script declares."""
    lines = [line.split(' ') for line in read_input(path).decode('ascii', 'replace').splitlines()] if path else []
    centres = [words[2].upper() for words in lines if words[0] == 'centre' and len(words) == 5]
    shorts = {words[3].upper(): words[4].upper() for words in lines if words[0] == 'peer' and len(words) == 5}
    return (centres[0] if centres else NO_EUI), shorts


def warn(condition: Any, text: str) -> None:
    """Says on standard error what holds, where it does."""
    if condition:
        say(f'gabzetu: {text}')


def active_net(rows: dict, path: str) -> dict:
    """Returns the active network key. Says which others are left behind."""
    if rows['active'] is None:
        raise Stop(f'{path}: the centre has no active network key', UNREADABLE)
    live = [row for place, row in enumerate(rows['nets']) if row['live'] and place != rows['active']]
    warn(
        live,
        f'not carried: {counted(len(live), "further network key")} in use, since a roll goes on: '
        'finish it, and make the backup then',
    )
    dropped = sum(not row['live'] for row in rows['nets'])
    warn(dropped, f'not carried: {counted(dropped, "dropped network key")}')
    return rows['nets'][rows['active']]


def devices_of(rows: dict, shorts: Dict[str, str], skip: int) -> List[Device]:
    """Returns the devices with verified keys in use. Says which others are left behind."""
    verified = [row for row in rows['links'] if row['live'] and row['attribute'] == VERIFIED]
    others = {
        row['partner']: WORDS[row['attribute']]
        for row in rows['links']
        if row['live'] and row['attribute'] != VERIFIED
    }
    others = {eui: word for eui, word in others.items() if eui not in [row['partner'] for row in verified]}
    removed = {row['partner'] for row in rows['links']} - {row['partner'] for row in rows['links'] if row['live']}
    warn(
        others,
        f'not carried: {counted(len(others), "device")} without a verified link key: '
        f'{some(f"{eui} ({word})" for eui, word in others.items())}. An install code admits each there.',
    )
    warn(
        removed,
        f'not carried: {counted(len(removed), "removed device")}: {some(sorted(removed))}. '
        'Nothing there keeps their keys out.',
    )
    known = others.keys() | removed | {row['partner'] for row in verified}
    named = [eui for eui in shorts if eui not in known]
    warn(
        named,
        f'not carried: {counted(len(named), "device")} of the script without a link key in the backup: '
        f'{some(named)}. An install code admits each there.',
    )
    warn(rows['pairs'], f'not carried: {counted(len(rows["pairs"]), "key")} of pairs of devices')
    sent = min(rows['aps'] + skip, MOST_COUNTER)
    return [
        Device(row['partner'], shorts.get(row['partner']), Link(row['key'], sent, row['floor'])) for row in verified
    ]


def tell_missing(arguments: argparse.Namespace, coordinator: str, devices: List[Device]) -> None:
    """Says what the backup needs that nobody gave."""
    warn(arguments.pan is None, f'no PAN is known: {NO_PAN} is written (--pan)')
    warn(arguments.channel is None, 'no channel is known: null is written (--channel)')
    warn(arguments.extended_pan is None, f'no extended PAN is known: {coordinator} is written (--extended-pan)')
    warn(coordinator == NO_EUI, f'the EUI of the centre is not known: {NO_EUI} is written (--script)')
    warn(True, 'the update identifier of the network is not known: 0 is written')
    missing = [it.eui for it in devices if it.short is None]
    warn(
        missing,
        f'no short address is known of {counted(len(missing), "device")}: null is written, '
        f'which Zigbee2MQTT does not read (--script): {some(missing)}',
    )


def run(arguments: argparse.Namespace) -> int:
    """Runs the command, and returns the exit status."""
    if not 0 <= arguments.skip <= MOST_COUNTER:
        raise Stop(f'--skip is 0 to {MOST_COUNTER}', WRONG_USE)
    keep_inputs([arguments.backup, arguments.script], [arguments.output])
    rows = read_rows(arguments.backup)
    coordinator, shorts = read_addresses(arguments.script)
    net, devices = active_net(rows, arguments.backup), devices_of(rows, shorts, arguments.skip)
    notes = {
        'PAN': arguments.pan or NO_PAN,
        'extended PAN': arguments.extended_pan or coordinator,
        'channel': arguments.channel,
    }
    now = datetime.datetime.now(datetime.timezone.utc)
    counter = min(net['limit'] + arguments.skip, MOST_COUNTER)
    backup = Backup(
        coordinator, net['key'], net['sequence'], counter, now, f'gabzetu@{read_version()}', devices, [], notes
    )
    tell_missing(arguments, coordinator, devices)
    write_output(arguments.output, json.dumps(object_of(backup, WELL_KNOWN), indent=4) + '\n', is_private=True)
    return 0
