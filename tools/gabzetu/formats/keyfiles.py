"""Reads keys from files of other programs: coordinator backups, settings of Zigbee2MQTT, keys of Wireshark, reports
and transcripts."""
import contextlib
import json
import os
import re
import shutil
import sqlite3
import tempfile
from typing import Dict, Iterator, List, Optional, Tuple, Union
from urllib.parse import quote

from ..errors import UNREADABLE, Stop
from ..output import read_input
from .numbers import read_hexadecimal, read_number

SQLITE = b'SQLite format 3\0'
# How settings of Zigbee2MQTT name a value of another file: '!secret.yaml network_key'.
SECRET = re.compile(r'["\']?!(secrets?(?:\.yaml)?)[ \t]+([\w-]+)')
KEY = re.compile('[0-9A-F]{32}')
SEPARATORS = re.compile(r'[:\-\s]')
MOST_LABEL = 100
KNOWN = (
    'a coordinator backup of zigpy, ZHA or Zigbee2MQTT, zigbee.db of zigpy, a backup of `gabzetu admin`, '
    'configuration.yaml of Zigbee2MQTT, zigbee_pc_keys of Wireshark, a report of inspect or sniff, and a transcript'
)


def printable(value: Union[int, str]) -> str:
    """Returns a foreign text in one line that a terminal takes, cut where it is long."""
    return ''.join(it for it in str(value) if it.isprintable())[:MOST_LABEL]


def normal_key(text: Optional[Union[int, str]]) -> Optional[str]:
    """Returns a key as tc writes it, or none where a text is no key. Colons, dashes, spaces and 0x are passed over."""
    text = SEPARATORS.sub('', str(text)).upper()
    text = text[2:] if text.startswith('0X') else text
    return text if KEY.fullmatch(text) else None


def members(value: dict, name: str) -> dict:
    """Returns the object that a member of a JSON object is, or an empty one."""
    found = value.get(name)
    return found if isinstance(found, dict) else {}


def objects(value: dict, name: str) -> List[dict]:
    """Returns the objects in the list that a member of a JSON object is."""
    found = value.get(name)
    return [it for it in found if isinstance(it, dict)] if isinstance(found, list) else []


def key_in(value: dict, name: str) -> Optional[Union[int, str]]:
    """Returns the member `key` of the object that a member is, or none."""
    return members(value, name).get('key')


def keys_of_coordinator(backup: dict) -> Iterator[tuple]:
    """Yields the keys of an open coordinator backup: of the network, of its devices, and of the trust centre."""
    yield key_in(backup, 'network_key'), f'network key {members(backup, "network_key").get("sequence_number", 0)}'
    for device in objects(backup, 'devices'):
        yield key_in(device, 'link_key'), f'link key of {str(device.get("ieee_address")).upper()}'
    inside = members(members(backup, 'metadata'), 'internal')
    yield key_in(members(inside, 'network'), 'tc_link_key'), 'trust centre link key'


def keys_of_zha(backup: dict) -> Iterator[tuple]:
    """Yields the keys of a backup as ZHA keeps it: network_info with network_key, tc_link_key and key_table."""
    info = members(backup, 'network_info')
    for name, words in (('network_key', 'network key'), ('tc_link_key', 'trust centre link key')):
        yield key_in(info, name), words
    for entry in objects(info, 'key_table'):
        yield entry.get('key'), f'link key of {entry.get("partner_ieee")}'


def keys_of_centre(backup: dict) -> Iterator[Tuple[str, str]]:
    """Yields the keys of a backup of `tc admin` (docs/BACKUP.md)."""
    for name, words in (
        ('nets', 'network key {sequence}'),
        ('links', 'link key of {partner}'),
        ('pairs', 'key of {first} with {second}'),
    ):
        for row in objects(backup, name):
            yield row.get('key'), words.format_map({'sequence': '', 'partner': '', 'first': '', 'second': '', **row})


def keys_of_json(value: Union[dict, list]) -> Iterator[tuple]:
    """Yields the keys of a JSON text of a known form."""
    while isinstance(value, dict) and isinstance(value.get('backup'), dict):
        value = value['backup']
    if not isinstance(value, dict):
        return
    if 'network_info' in value:
        yield from keys_of_zha(value)
    elif 'nets' in value:
        yield from keys_of_centre(value)
    elif 'network_key' in value:
        yield from keys_of_coordinator(value)


def number_of(word: str) -> Optional[int]:
    """Returns the number that a word is, decimal or with 0x, or none."""
    return read_hexadecimal(word[2:]) if word[:2] in ('0x', '0X') else read_number(word)


def listed_numbers(text: str) -> List[Optional[int]]:
    """Returns the numbers of a list of YAML that a text begins with, in brackets or a line each, or an empty list."""
    inline = re.match(r'\[([^\]]*)\]', text)
    block = re.match(r'[^\n]*\n((?:[ \t]*-[ \t]*\w+[ \t]*(?:#[^\n]*)?(?:\n|$))+)', text)
    found = inline or block
    return (
        [number_of(it) for it in re.findall(r'\b(?:0[xX][0-9A-Fa-f]+|\d+)\b', re.sub('#.*', '', found[1]))]
        if found
        else []
    )


def member_of_settings(text: str, name: str) -> Optional[re.Match]:
    """Returns where the value of a member of YAML is, in a line of its own or within braces; or none."""
    return re.search(rf'(?:^|[{{,])[ \t]*{re.escape(name)}:[ \t]*([^\n]*)', text, re.M)


def place_of_secret(text: str, path: str) -> Tuple[str, Optional[re.Match]]:
    """Returns the text and the place of a network key, which may be a word for one in secret.yaml beside a file."""
    place = member_of_settings(text, 'network_key')
    named = SECRET.match(place[1]) if place else None
    if not named or path == '-':
        return text, place
    other = os.path.join(os.path.dirname(path), named[1] if named[1].endswith('yaml') else f'{named[1]}.yaml')
    text = read_input(other).decode('utf-8', 'replace')
    return text, member_of_settings(text, named[2])


def keys_of_settings(text: str, path: str = '-') -> Iterator[Tuple[str, str]]:
    """Yields the network key of Zigbee2MQTT's settings, 16 numbers in a list or a text of digits."""
    text, place = place_of_secret(text, path)
    if not place:
        return
    numbers = listed_numbers(text[place.start(1) :])
    if len(numbers) == 16 and all(it is not None and it < 256 for it in numbers):
        yield bytes(numbers).hex(), 'network key of the settings'
    elif not numbers:
        yield place[1].split('#')[0].strip(' \'"\r}'), 'network key of the settings'


def keys_of_wireshark(text: str) -> Iterator[Tuple[str, str]]:
    """Yields the keys of lines of zigbee_pc_keys: a key, its byte order, a label."""
    for key, order, label in re.findall(r'^[ \t]*"([^"]*)","(Normal|Reverse)","([^"]*)"', text, re.M):
        key = normal_key(key)
        yield bytes.fromhex(key)[::-1].hex() if key and order == 'Reverse' else key, label or 'zigbee_pc_keys'


def keys_of_report(lines: List[List[str]]) -> Iterator[Tuple[str, str]]:
    """Yields the keys of the lines of a report, each with a word on where it comes from."""
    for words in lines:
        if words[0] == 'key' and words[3:] == ['given']:
            yield words[2], f'key {words[1]}, given'
        elif words[0] == 'key' and words[3:4] == ['found'] and words[4:5] and read_number(words[4]) is not None:
            yield words[2], f'key {words[1]}, found in frame {words[4]}'


def keys_of_transcript(lines: List[List[str]]) -> Iterator[Tuple[str, str]]:
    """Yields the keys that nodes have from the start or take in, each with a word on where it comes from."""
    for event, kind, *words in (words for words in lines if len(words) > 3 and read_number(words[0]) is not None):
        if kind == 'given' and words[1] == 'net' and len(words) > 3:
            yield words[2], f'network key {words[3]} of the start'
        elif kind == 'given' and words[1] == 'link' and len(words) > 3:
            yield words[3], f'link key of {words[0]} from its install code'
        elif kind == 'install' and len(words) > 2:
            yield words[1], f'network key {words[2]}, event {event}'
        elif kind == 'row' and len(words) > 2:
            yield words[2], f'link key of {words[0]} with {words[1]}, event {event}'
        elif kind == 'pair' and len(words) > 3:
            yield words[3], f'link key of {words[1]} with {words[2]}, event {event}'


def fields_of_line(line: str) -> Optional[dict]:
    """Returns the fields of a JSON line, or none of one that is no JSON."""
    try:
        return json.loads(line)
    except (ValueError, RecursionError):
        return {}


def keys_of_opened(text: str) -> Iterator[tuple]:
    """Yields the keys of what `gabzetu open` writes: its listing, or its JSON lines."""
    for number, key, words in re.findall(r'^  key +(\d+) +([0-9A-F]{32})  (.+)$', text, re.M):
        yield key, f'key {number}, {words.split(", which key")[0]}'
    for line in re.findall(r'^\{"kind": "key", .*\}$', text, re.M):
        fields = fields_of_line(line)
        yield fields.get('key'), f'key {fields.get("k")}, {fields.get("origin")}'


@contextlib.contextmanager
def open_database(path: str) -> Iterator[sqlite3.Connection]:
    """Yields a copy of a database, with what a running program wrote to its log but not yet to the file itself.

    SQLite would write beside the file to read that log, so the copy is in a folder of its own."""
    with tempfile.TemporaryDirectory(prefix='gabzetu-') as folder:
        copy = os.path.join(folder, 'copy.db')
        for ending in ('', '-wal'):
            if os.path.exists(path + ending):
                shutil.copyfile(path + ending, copy + ending)
        with contextlib.closing(sqlite3.connect(f'file:{quote(copy)}', uri=True)) as database:
            yield database


def keys_of_database(path: str) -> Iterator[tuple]:
    """Yields the keys of the latest backup in zigbee.db, the database of zigpy."""
    with open_database(path) as database:
        names = database.execute("select name from sqlite_master where name glob 'network_backups_v[0-9]*'").fetchall()
        for name in sorted((it[0] for it in names), key=lambda it: (len(it), it), reverse=True)[:1]:
            row = database.execute(f'select backup_json from "{name}" order by id desc limit 1').fetchone()
            yield from keys_of_json(json.loads(row[0])) if row else ()


def labelled_keys(path: str) -> Iterator[tuple]:
    """Yields the keys of a file of any known form, each with a word on where it comes from."""
    data = read_input(path)
    if not data.startswith(SQLITE):
        yield from keys_of_text(data.decode('utf-8-sig'), path)
        return
    try:
        yield from keys_of_database(path)
    except (sqlite3.Error, ValueError, RecursionError) as error:
        raise Stop(f'{path}: the database cannot be read: {error}', UNREADABLE) from error


def keys_of_text(text: str, path: str = '-') -> Iterator[tuple]:
    """Yields the keys of a text of any known form."""
    try:
        yield from keys_of_json(json.loads(text))
        return
    except (ValueError, RecursionError):
        pass
    lines = [words for words in map(str.split, text.splitlines()) if words]
    yield from keys_of_wireshark(text)
    yield from keys_of_report(lines)
    yield from keys_of_transcript(lines)
    yield from keys_of_opened(text)
    yield from keys_of_settings(text, path)


def read_key_file(path: str) -> Optional[Dict[str, str]]:
    """Returns the keys of a file, each with a word on where it comes from. Stops where there is none."""
    try:
        found = list(labelled_keys(path))
    except UnicodeDecodeError as error:
        raise Stop(f'{path}: this is no text: known are {KNOWN}', UNREADABLE) from error
    labels = {}
    for text_of_key, label in found:
        key = normal_key(text_of_key)
        if key:
            labels.setdefault(key, printable(label))
    if not labels:
        raise Stop(f'{path}: no keys are in it: known are {KNOWN}', UNREADABLE)
    return labels
