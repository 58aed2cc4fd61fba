"""Tests of the files that keys come from."""
import contextlib
import json
import os
import sqlite3

from gabzetu import TOP
from gabzetu.errors import Stop
from gabzetu.formats import keyfiles
from gabzetu.formats.keyfiles import read_key_file
from gabzetu.test.captures import data
from gabzetu.test.support import Folder, example

KEY, OTHER = '01030507090B0D0F00020406080A0C0D', '0D0C0A08060402000F0D0B0907050301'
LIST = '1, 3, 5, 7, 9, 11, 13, 15, 0, 2, 4, 6, 8, 10, 12, 13'


class OtherSources(Folder):
    """Settings that name a key elsewhere, or have it within braces, and the database of zigpy."""

    def test_secrets_of_zigbee2mqtt(self):
        self.write('secret.yaml', 'user: me\nnetwork_key: [1, 2, 3, 4, 5, 6, 7, 8, 9, 10, 11, 12, 13, 14, 15, 16]\n')
        for word in ("'!secret.yaml network_key'", '!secret network_key'):
            path = self.write('configuration.yaml', f'advanced:\n  network_key: {word}\n')
            self.assertEqual(list(keyfiles.read_key_file(path)), ['0102030405060708090A0B0C0D0E0F10'])
        path = self.write('configuration.yaml', 'advanced:\n  network_key: !secret other\n')
        self.assertRaises(Stop, keyfiles.read_key_file, path)

    def test_settings_within_braces(self):
        numbers = ', '.join(map(str, range(1, 17)))
        path = self.write('configuration.yaml', f'advanced: {{channel: 11, network_key: [{numbers}]}}\n')
        self.assertEqual(list(keyfiles.read_key_file(path)), ['0102030405060708090A0B0C0D0E0F10'])

    def test_database_of_zigpy(self):
        path = self.path('zigbee.db')
        with open(os.path.join(TOP, 'tools', 'data', 'zha.json'), encoding='utf-8') as file:
            backup = json.load(file)
        backup = backup.get('backup', backup)
        with contextlib.closing(sqlite3.connect(path)) as database:
            database.execute('create table network_backups_v13 (id integer primary key, backup_json text)')
            database.execute('insert into network_backups_v13 (backup_json) values (?)', (json.dumps(backup),))
            database.commit()
        wanted = keyfiles.read_key_file(os.path.join(TOP, 'tools', 'data', 'zha.json'))
        self.assertEqual(keyfiles.read_key_file(path), wanted)
        self.add_while_it_runs(path)
        broken = self.path('broken.db')
        with open(broken, 'wb') as file:
            file.write(keyfiles.SQLITE + bytes(100))
        self.assertRaises(Stop, keyfiles.read_key_file, broken)


    def add_while_it_runs(self, path):
        """A program that runs has its last backup in the log beside the database. Nothing is written there."""
        with contextlib.closing(sqlite3.connect(path)) as database:
            database.execute('pragma journal_mode = wal')
            later = json.dumps({'network_key': {'key': KEY}})
            database.execute('insert into network_backups_v13 (backup_json) values (?)', (later,))
            database.commit()
            beside = sorted(os.listdir(self.folder))
            self.assertEqual(list(keyfiles.read_key_file(path)), [KEY])
            self.assertEqual(sorted(os.listdir(self.folder)), beside)


class KeyFiles(Folder):
    def keys(self, text):
        return list(read_key_file(self.write('file', text)))

    def test_settings_of_zigbee2mqtt(self):
        self.assertEqual(self.keys(f'advanced:\n  network_key: [{LIST}]\n  channel: 11\n'), [KEY])
        block = ''.join(f'    - {number}\n' for number in LIST.split(', '))
        self.assertEqual(self.keys(f'advanced:\n  network_key:\n{block}  channel: 11\n'), [KEY])
        self.assertEqual(
            self.keys('network_key: [0x01, 0x03, 0x05, 0x07, 0x09, 0x0B, 0x0D, 0x0F, 0, 2, 4, 6, 8, 0xa, 0xc, 0xD]'),
            [KEY],
        )
        self.assertEqual(self.keys(f'network_key: "{KEY.lower()}"  # mine\r\n'), [KEY])
        for bad in (
            'network_key: GENERATE',
            "network_key: '!secret.yaml network_key'",
            'network_key: [1, 2, 256]',
            'channel: 11',
        ):
            with self.assertRaises(Stop):
                self.keys(bad)

    def test_keys_of_wireshark(self):
        colons = ':'.join(KEY[at : at + 2] for at in range(0, 32, 2)).lower()
        self.assertEqual(self.keys(f'# comment\n"{colons}","Normal","home"\n"0x{KEY}","Reverse",""\n'), [KEY, OTHER])

    def test_backups_of_coordinators(self):
        self.assertEqual(list(read_key_file(data('zigpy.json')).values())[0], 'network key 0')
        self.assertIn('E0F0F1F2F3F4F5F6F7F8F9FAFBFCFDFE', read_key_file(data('zigpy.json')))
        self.assertEqual(len(read_key_file(data('zigbee2mqtt.json'))), 2)
        with open(data('zigpy.json'), encoding='utf-8') as file:
            self.assertEqual(
                self.keys(json.dumps({'backup': json.load(file)})), list(read_key_file(data('zigpy.json')))
            )

    def test_a_backup_as_zha_keeps_it(self):
        info = {
            'network_key': {'key': KEY.lower(), 'seq': 0},
            'tc_link_key': {'key': '5a:69:67:42:65:65:41:6c:6c:69:61:6e:63:65:30:39'},
            'key_table': [{'key': OTHER, 'partner_ieee': '00:12:4b:00:00:00:00:02'}],
        }
        self.assertEqual(
            self.keys(json.dumps({'network_info': info, 'node_info': {}})),
            [KEY, '5A6967426565416C6C69616E63653039', OTHER],
        )

    def test_a_backup_of_a_centre_a_report_and_a_transcript(self):
        self.assertEqual(
            list(read_key_file(example('admin.backup')).values()), ['network key 0', 'link key of 00124B0000000002']
        )
        self.assertEqual(
            list(read_key_file(data('join.report')).values()),
            ['key 1, given', 'key 2, found in frame 3', 'key 3, found in frame 6'],
        )
        self.assertEqual(len(read_key_file(example('join.transcript'))), 3)

    def test_what_has_no_keys(self):
        for text in (
            '',
            '{}',
            '[]',
            '{"network_key": 5}',
            'hello',
            '{"nets": [5]}',
            '{"network_info": {"key_table": [5]}}',
            '{"devices": [{"link_key": 5}], "network_key": {"key": 5}}',
        ):
            with self.subTest(text), self.assertRaises(Stop) as stopped:
                self.keys(text)
            self.assertEqual(stopped.exception.status, 66)
        with open(self.path('bytes'), 'wb') as file:
            file.write(b'\xff\xfe\x00')
        with self.assertRaises(Stop):
            read_key_file(self.path('bytes'))
