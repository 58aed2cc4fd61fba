"""Reads and writes the open coordinator backup of zigpy, ZHA and Zigbee2MQTT: one JSON object of format version 1."""
import collections
import datetime
import json
import re
from typing import Any, Dict, List, Optional, Union

from ..errors import UNREADABLE, Stop
from .keyfiles import printable

FORMAT, VERSION = 'zigpy/open-coordinator-backup', 1
MOST_COUNTER, LEVEL = 0xFFFFFFFF, 5
CHANNELS = range(11, 27)
NO_EUI, NO_PAN = 'F' * 16, 'FFFF'
# Greater ones are no address of a node: zigpy writes FFFE for one that it does not know.
LAST_SHORT = 'FFF7'
KEPT_AS_SEEDS = {'hashed_tclk', 'tclk_seed'}

# coordinator: its EUI; key, sequence, counter: of the network; made: when the backup was made, or none; devices: in
# their order; seeds: names of what link keys are derived from; notes: what else it says, as text by name
Backup = collections.namedtuple('Backup', 'coordinator key sequence counter made source devices seeds notes')

# short: none where it is not known; link: its link key, or none
Device = collections.namedtuple('Device', 'eui short link')
Link = collections.namedtuple('Link', 'key sent received')


class Bad(Exception):
    """Which member of a backup is not as it should be."""


def is_count(value: Union[bool, float], most: int) -> bool:
    """Returns whether a value is a whole number from 0 to `most`."""
    return isinstance(value, int) and not isinstance(value, bool) and 0 <= value <= most


def get_object(value: dict, name: str, place: str = '') -> dict:
    """Returns the object that a member is."""
    found = value.get(name)
    if not isinstance(found, dict):
        raise Bad(f'{place}{name} should be an object')
    return found


def get_count(value: dict, name: str, most: int, place: str = '') -> int:
    """Returns the whole number that a member is."""
    found = value.get(name)
    if not is_count(found, most):
        raise Bad(f'{place}{name} should be a whole number from 0 to {most}, and is {json.dumps(found)[:40]}')
    return found


def get_digits(value: dict, name: str, size: int, place: str = '') -> str:
    """Returns a member of hexadecimal digits in upper case. Colons are passed over."""
    found = value.get(name)
    text = re.sub('[:]', '', found).upper() if isinstance(found, str) else ''
    text = text[2:] if text.startswith('0X') else text
    if not re.fullmatch(f'[0-9A-F]{{{size}}}', text):
        raise Bad(f'{place}{name} should be {size} hexadecimal digits, and is {json.dumps(found)[:60]}')
    return text


def read_device(value: dict, place: str) -> Optional[Device]:
    """Returns a device of the list `devices`."""
    if not isinstance(value, dict):
        raise Bad(f'{place} should be an object')
    eui = get_digits(value, 'ieee_address', 16, f'{place}.')
    short = None if value.get('nwk_address') is None else get_digits(value, 'nwk_address', 4, f'{place}.')
    short = None if short is not None and short > LAST_SHORT else short
    if value.get('link_key') is None:
        return Device(eui, short, None)
    link, place = get_object(value, 'link_key', f'{place}.'), f'{place}.link_key.'
    return Device(
        eui,
        short,
        Link(
            get_digits(link, 'key', 32, place),
            get_count(link, 'tx_counter', MOST_COUNTER, place),
            get_count(link, 'rx_counter', MOST_COUNTER, place),
        ),
    )


def read_time(text: Optional[str]) -> Optional[datetime.datetime]:
    """Returns the time that a text of ISO 8601 says, or none."""
    try:
        time = datetime.datetime.fromisoformat(str(text).replace('Z', '+00:00'))
    except ValueError:
        return None
    return time if time.tzinfo else time.replace(tzinfo=datetime.timezone.utc)


def metadata_of(value: Any) -> dict:
    """Returns the member `metadata` of a backup of the known format."""
    found = value.get('metadata') if isinstance(value, dict) else None
    if not isinstance(found, dict) or found.get('format') != FORMAT:
        raise Bad(f'this is no open coordinator backup: metadata.format should be {FORMAT!r}')
    if found.get('version') != VERSION:
        raise Bad(f'metadata.version should be {VERSION}, and is {json.dumps(found.get("version"))[:40]}')
    return found


def notes_of(value: dict) -> Dict[str, str]:
    """Returns what a backup says of the network that a centre's store doesn't keep."""
    names = {
        'pan_id': 'PAN',
        'extended_pan_id': 'extended PAN',
        'channel': 'channel',
        'nwk_update_id': 'update identifier',
    }
    return {
        word: printable(value[name]).upper().replace(':', '')
        for name, word in names.items()
        if value.get(name) is not None
    }


def seeds_of(value: dict) -> List[str]:
    """Returns the names of the seeds of link keys that a backup has for a stack."""
    stacks = value.get('stack_specific') or {}
    return sorted(
        {name for stack in stacks.values() if isinstance(stack, dict) for name in stack if name in KEPT_AS_SEEDS}
        if isinstance(stacks, dict)
        else []
    )


def read_backup(value: Any) -> Optional[Backup]:
    """Returns the backup that a JSON value is, or raises Bad."""
    metadata = metadata_of(value)
    inside = metadata.get('internal') if isinstance(metadata.get('internal'), dict) else {}
    network, devices = get_object(value, 'network_key'), value.get('devices')
    if not isinstance(devices, list):
        raise Bad('devices should be a list')
    if value.get('security_level') not in (None, LEVEL):
        raise Bad(f'security_level is {json.dumps(value.get("security_level"))[:40]}, and tc has level {LEVEL} alone')
    return Backup(
        get_digits(value, 'coordinator_ieee', 16),
        get_digits(network, 'key', 32, 'network_key.'),
        get_count(network, 'sequence_number', 255, 'network_key.'),
        get_count(network, 'frame_counter', MOST_COUNTER, 'network_key.'),
        read_time(inside.get('creation_time') or inside.get('date')),
        printable(metadata.get('source') or 'unknown'),
        [read_device(it, f'devices[{place}]') for place, it in enumerate(devices)],
        seeds_of(value),
        notes_of(value),
    )


def list_of(value: dict, name: str) -> list:
    """Returns the list that a member of zigpy's tables is, empty where it is missing."""
    found = value.get(name, [])
    if not isinstance(found, list):
        raise Bad(f'network_info.{name} should be a list')
    return found


def devices_in_tables(network: dict) -> List[dict]:
    """Returns the devices in zigpy's tables of short addresses, children and link keys, as objects of `devices`."""
    shorts = get_object(network, 'nwk_addresses', 'network_info.') if 'nwk_addresses' in network else {}
    found = {eui: {'ieee_address': eui, 'nwk_address': short} for eui, short in shorts.items()}
    for eui in map(str, list_of(network, 'children')):
        found.setdefault(eui, {'ieee_address': eui})
    for row in list_of(network, 'key_table'):
        eui = str(row.get('partner_ieee')) if isinstance(row, dict) else ''
        found.setdefault(eui, {'ieee_address': eui})['link_key'] = row
    return sorted(found.values(), key=lambda it: it['ieee_address'])


def open_form(value: dict) -> Optional[dict]:
    """Returns the open coordinator backup of a backup of zigpy's database, which is what ZHA hands out."""
    network, node = get_object(value, 'network_info'), get_object(value, 'node_info')
    key = get_object(network, 'network_key', 'network_info.')
    return {
        **{name: network.get(name) for name in ('pan_id', 'extended_pan_id', 'channel', 'nwk_update_id')},
        'metadata': {
            'format': FORMAT,
            'version': VERSION,
            'source': network.get('source'),
            'internal': {'creation_time': value.get('backup_time')},
        },
        'coordinator_ieee': node.get('ieee'),
        'security_level': network.get('security_level'),
        'network_key': {
            'key': key.get('key'),
            'sequence_number': key.get('seq') or 0,
            'frame_counter': key.get('tx_counter') or 0,
        },
        'devices': devices_in_tables(network),
        'stack_specific': network.get('stack_specific'),
    }


def parse_json(text: str, path: str) -> Any:
    """Returns the JSON value of a text. Stops where it is none."""
    try:
        return json.loads(text)
    except (ValueError, RecursionError) as error:
        raise Stop(f'{path}: this is no JSON: {error}', UNREADABLE) from error


def parse_backup(data: bytes, path: str) -> Backup:
    """Returns the backup that the bytes of a file are. ZHA puts it into an object with the one member `backup`,
    and either form of zigpy is read."""
    value = parse_json(data.decode('utf-8-sig', 'replace'), path)
    if isinstance(value, dict) and isinstance(value.get('backup'), dict):
        value = value['backup']
    try:
        if isinstance(value, dict) and 'network_info' in value:
            value = open_form(value)
        return read_backup(value)
    except Bad as why:
        raise Stop(f'{path}: {why}', UNREADABLE) from why


def object_of_device(device: Device) -> dict:
    """Returns the object of a device, as zigpy writes it."""
    value = {
        'ieee_address': device.eui.lower(),
        'nwk_address': device.short.lower() if device.short else None,
        'is_child': False,
    }
    if device.link:
        value['link_key'] = {
            'key': device.link.key.lower(),
            'tx_counter': device.link.sent,
            'rx_counter': device.link.received,
        }
    return value


def internal_of(backup: Backup, well_known: str) -> dict:
    """Returns the member `metadata.internal`, as zigpy writes it."""
    coordinator = backup.coordinator.lower()
    return {
        'creation_time': backup.made.isoformat(timespec='seconds'),
        'node': {
            'ieee': coordinator,
            'nwk': '0000',
            'type': 'coordinator',
            'model': None,
            'manufacturer': None,
            'version': None,
        },
        'network': {
            'tc_link_key': {'key': well_known.lower(), 'frame_counter': 0},
            'tc_address': coordinator,
            'security_level': LEVEL,
            'nwk_manager': '0000',
        },
        'link_key_seqs': {device.eui.lower(): 0 for device in backup.devices if device.link},
    }


def object_of(backup: Backup, well_known: str) -> dict:
    """Returns the JSON object of a backup. Its notes have PAN, extended PAN and channel."""
    return {
        'metadata': {
            'version': VERSION,
            'format': FORMAT,
            'source': backup.source,
            'internal': internal_of(backup, well_known),
        },
        'coordinator_ieee': backup.coordinator.lower(),
        'pan_id': backup.notes['PAN'].lower(),
        'extended_pan_id': backup.notes['extended PAN'].lower(),
        'nwk_update_id': 0,
        'security_level': LEVEL,
        'channel': backup.notes['channel'],
        'channel_mask': list(CHANNELS),
        'network_key': {
            'key': backup.key.lower(),
            'sequence_number': backup.sequence,
            'frame_counter': backup.counter,
        },
        'devices': [object_of_device(it) for it in sorted(backup.devices)],
        'stack_specific': {},
    }
