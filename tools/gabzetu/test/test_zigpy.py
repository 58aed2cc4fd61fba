"""Tests of from-zigpy and to-zigpy. zigpy.json and zigbee2mqtt.json have the shapes that zigpy and zigbee-herdsman
write; zha.json was written by zigpy 0.53.1 of zigpy.json. Where zigpy is installed, it reads and writes as well."""
import copy
import datetime
import json
import os
import stat
import subprocess
import unittest

from gabzetu.commands.from_zigpy import days_since
from gabzetu.test.captures import data
from gabzetu.test.support import Folder, example, needs_tc, run

KEY, LINK = '01030507090B0D0F00020406080A0C0D', 'E0F0F1F2F3F4F5F6F7F8F9FAFBFCFDFE'


# zigpy's own reader and writer: what it reads of a file, as `open` or `zha` has it
BY_ZIGPY = '''
import json, sys
from zigpy.backups import NetworkBackup
backup = NetworkBackup.from_dict(json.load(open(sys.argv[1])))
print(json.dumps(backup.as_dict() if sys.argv[2] == 'zha' else backup.as_open_coordinator_json()))
'''
SYSTEM_PYTHON = '/usr/bin/python3'


def has_zigpy():
    try:
        return not subprocess.run([SYSTEM_PYTHON, '-c', 'import zigpy.backups'], stderr=subprocess.DEVNULL).returncode
    except OSError:
        return False


def by_zigpy(path, form):
    """Returns what zigpy writes of a backup that it reads."""
    ran = subprocess.run([SYSTEM_PYTHON, '-c', BY_ZIGPY, path, form], stdout=subprocess.PIPE, check=True)
    return json.loads(ran.stdout.decode())


def read(name):
    with open(name, encoding='utf-8') as file:
        return json.load(file)


def backup_in(script):
    return json.loads(script.splitlines()[-1].split(' ', 2)[2])


@needs_tc
class FromZigpy(Folder):
    def convert(self, value, *words):
        return run('from-zigpy', self.write('backup.json', json.dumps(value)), *words)

    def test_of_zigpy(self):
        ran = run('from-zigpy', data('zigpy.json'), '--skip', '1000')
        self.assertEqual(ran.status, 0)
        lines = ran.output.splitlines()
        self.assertEqual(
            lines[:4],
            [
                'centre hub 00124B00000000C0 1000 16',
                'peer n1a2b router 00124B0000000002 1A2B',
                'peer n3c4d router 00124B0000000003 3C4D',
                'peer n5e6f router 00124B0000000005 5E6F',
            ],
        )
        self.assertTrue(lines[4].startswith('restore 1000 {'))
        backup = backup_in(ran.output)
        self.assertEqual(
            [(row['partner'], row['key'], row['floor']) for row in backup['links']], [('00124B0000000002', LINK, 34)]
        )
        self.assertEqual((backup['aps'], backup['nets'][0]['limit'], backup['nets'][0]['key']), (12, 66781, KEY))
        for words in (
            '2 devices without a link key of its own',
            '00124B0000000004, 00124B0000000005',
            'hashed_tclk',
            '1 device under the well-known link key: 00124B0000000003',
            'PAN 1A62',
            'channel 15',
            'says `router`',
        ):
            self.assertIn(words, ran.said)

    def test_of_zha(self):
        ran, other = (run('from-zigpy', data(name), '--skip', '0') for name in ('zha.json', 'zigpy.json'))
        self.assertEqual((ran.status, ran.output), (0, other.output))
        self.assertEqual(ran.said, other.said)
        zha = {'backup': read(data('zha.json')), 'is_complete': True}
        self.assertEqual(self.convert(zha, '--skip', '0').output, other.output)
        zha['backup']['network_info']['key_table'][0]['key'] = '01'
        self.assertIn('link_key.key should be 32 hexadecimal digits', self.convert(zha).said)

    def test_of_zigbee2mqtt_makes_a_store(self):
        ran = run('from-zigpy', data('zigbee2mqtt.json'), '--skip', '1000', '-o', self.path('script'))
        self.assertEqual((ran.status, ran.output), (0, ''))
        self.assertEqual(stat.S_IMODE(os.stat(self.path('script')).st_mode), 0o600)
        with open(self.path('script'), 'a', encoding='ascii') as file:
            file.write('list\n')
        ran = run('admin', self.path('store'), self.path('script'))
        self.assertEqual(
            ran.output.splitlines(),
            [
                'ok 4',
                f'net 0 {KEY} 0 active',
                'link 0 00124B0000000002 A0A1A2A3A4A5A6A7A8A9AAABACADAEAF verified live',
                'ok 5',
            ],
        )

    def test_the_skip_is_a_million_for_each_day(self):
        value = read(data('zigbee2mqtt.json'))
        begun = datetime.datetime.now(datetime.timezone.utc) - datetime.timedelta(hours=30)
        value['metadata']['internal']['date'] = begun.isoformat(timespec='milliseconds').replace('+00:00', 'Z')
        self.assertIn('restore 2000000 ', self.convert(value).output)
        del value['metadata']['internal']['date']
        ran = self.convert(value)
        self.assertIn('restore 10000000 ', ran.output)
        self.assertIn('the backup has no date', ran.said)
        self.assertEqual(self.convert(value, '--skip', '-1').status, 64)

    def test_addresses_that_nobody_has_are_unknown(self):
        """zigpy writes FFFE for a device whose short address it does not know."""
        for short in ('fffe', 'FFFF', '0xfffe'):
            value = read(data('zigbee2mqtt.json'))
            value['devices'][0]['nwk_address'] = short
            ran = self.convert(value)
            self.assertEqual(ran.status, 0, ran.said)
            self.assertIn('no peer line for 1 device without a short address', ran.said)

    def test_what_the_store_refuses_is_refused(self):
        value = read(data('zigbee2mqtt.json'))
        value['devices'][1]['link_key'] = dict(value['devices'][0]['link_key'])
        ran = self.convert(value, '-o', self.path('out'))
        self.assertEqual((ran.status, ran.output), (5, ''))
        self.assertIn('have one link key, and the store takes each key once', ran.said)
        value['devices'][1]['nwk_address'], value['devices'][1]['link_key'] = '1a2b', None
        self.assertIn('two devices have the address 1A2B', self.convert(value).said)
        self.assertNotIn('out', os.listdir(self.folder))

    def test_more_devices_than_peers(self):
        value = read(data('zigbee2mqtt.json'))
        device = value['devices'][0]
        value['devices'] = [
            {
                **device,
                'nwk_address': f'{number:04x}',
                'ieee_address': f'{number:016x}',
                'link_key': {**device['link_key'], 'key': f'{number:032x}'},
            }
            for number in range(1, 101)
        ]
        ran = self.convert(value)
        self.assertEqual(ran.status, 0)
        self.assertEqual((len(ran.output.splitlines()), len(backup_in(ran.output)['links'])), (65, 100))
        self.assertIn('no peer line for 37 devices', ran.said)

    def test_each_member_that_is_wrong_is_named(self):
        value = read(data('zigpy.json'))
        cases = [
            ('coordinator_ieee', 5),
            ('network_key', None),
            ('devices', {}),
            ('security_level', 6),
            ('metadata', {}),
        ]
        for name, bad in cases:
            with self.subTest(name):
                ran = self.convert({**value, name: bad})
                self.assertEqual((ran.status, ran.output), (66, ''))
                self.assertIn('metadata.format' if name == 'metadata' else name, ran.said)
        for name, bad in (
            ('frame_counter', 1 << 32),
            ('frame_counter', True),
            ('sequence_number', 256),
            ('key', 'xyz'),
        ):
            with self.subTest(name):
                self.assertIn(
                    f'network_key.{name} should be',
                    self.convert({**value, 'network_key': {**value['network_key'], name: bad}}).said,
                )
        other = copy.deepcopy(value)
        other['devices'][0]['link_key']['rx_counter'] = 1.5
        self.assertIn('devices[0].link_key.rx_counter should be a whole number', self.convert(other).said)

    def test_what_is_no_backup(self):
        for text in ('', '[]', '5', '{"a"', '[' * 100000, '{"metadata": 5}', '"\\ud800"'):
            with self.subTest(text[:20]):
                ran = run('from-zigpy', self.write('bad', text))
                self.assertEqual((ran.status, ran.output), (66, ''))
                self.assertNotIn('Traceback', ran.said)
        ran = run('from-zigpy', self.write('zha', '{"network_info": {}}'))
        self.assertIn('node_info should be an object', ran.said)
        self.assertEqual(run('from-zigpy', self.path('none')).status, 66)

    def test_foreign_words_stay_in_their_line(self):
        value = {**read(data('zigpy.json')), 'pan_id': '\x1b[31m\nboom'}
        self.assertNotIn('\x1b', self.convert(value).said)


@needs_tc
class ToZigpy(Folder):
    def test_there_and_back(self):
        for name in ('zigpy.json', 'zigbee2mqtt.json'):
            with self.subTest(name):
                before = read(data(name))
                run('from-zigpy', data(name), '--skip', '0', '-o', self.path('script'))
                with open(self.path('script'), 'a', encoding='ascii') as file:
                    file.write('backup\n')
                run('admin', self.path(f'store.{name}'), self.path('script'), '-o', self.path('hub.backup'))
                ran = run(
                    'to-zigpy',
                    self.path('hub.backup'),
                    '--script',
                    self.path('script'),
                    '--pan',
                    before['pan_id'],
                    '--channel',
                    str(before['channel']),
                    '--extended-pan',
                    before['extended_pan_id'],
                    '--skip',
                    '0',
                )
                self.assertEqual(ran.status, 0)
                self.assertIn('the update identifier of the network is not known: 0 is written', ran.said)
                self.assertRegex(ran.said, 'not carried: [12] devices? of the script without a link key in the backup')
                after = json.loads(ran.output)
                for member in (
                    'coordinator_ieee',
                    'pan_id',
                    'extended_pan_id',
                    'channel',
                    'security_level',
                    'network_key',
                ):
                    self.assertEqual(after[member], before[member], member)
                self.assertEqual(
                    [(it['ieee_address'], it['nwk_address'], it['link_key']) for it in after['devices']],
                    [(it['ieee_address'], it['nwk_address'], it['link_key']) for it in before['devices'][:1]],
                )
                self.assertEqual(run('from-zigpy', self.write('again', ran.output)).status, 0)

    def test_has_all_that_zigpy_reads(self):
        value = json.loads(run('to-zigpy', example('admin.backup'), '--pan', '0x1A62', '--channel', '11').output)
        shape = read(data('zigpy.json'))
        self.assertEqual(set(value), set(shape))
        self.assertEqual(set(value['metadata']), set(shape['metadata']))
        self.assertEqual(set(value['metadata']['internal']), set(shape['metadata']['internal']) - {'ezsp'})
        self.assertEqual(set(value['metadata']['internal']['network']), set(shape['metadata']['internal']['network']))
        self.assertEqual(value['network_key']['frame_counter'], 1000004)

    @unittest.skipUnless(has_zigpy(), 'python3-zigpy is missing')
    def test_zigpy_reads_the_same(self):
        run('from-zigpy', data('zigpy.json'), '--skip', '0', '-o', self.path('script'))
        with open(self.path('script'), 'a', encoding='ascii') as file:
            file.write('backup\n')
        run('admin', self.path('store'), self.path('script'), '-o', self.path('hub.backup'))
        words = ['--script', self.path('script'), '--pan', '1A62', '--channel', '15', '--skip', '7']
        run('to-zigpy', self.path('hub.backup'), *words, '-o', self.path('coordinator.json'))
        ours, theirs = read(self.path('coordinator.json')), by_zigpy(self.path('coordinator.json'), 'open')
        for part in (ours, ours['metadata']['internal']):
            part.pop('stack_specific', None)
            part.pop('node', None)
        for member in set(ours) - {'metadata'}:
            self.assertEqual(theirs[member], ours[member], member)
        self.assertEqual(theirs['network_key']['frame_counter'], 66788)
        again = run('from-zigpy', self.write('zha', json.dumps(by_zigpy(self.path('coordinator.json'), 'zha'))))
        self.assertEqual(again.status, 0)
        self.assertEqual([row['key'] for row in backup_in(again.output)['links']], [LINK])

    @unittest.skipUnless(has_zigpy(), 'python3-zigpy is missing')
    def test_the_samples_are_as_zigpy_writes_them(self):
        self.assertEqual(by_zigpy(data('zigpy.json'), 'zha'), read(data('zha.json')))
        sample, written = read(data('zigpy.json')), by_zigpy(data('zigpy.json'), 'open')
        for value in (sample, written):
            for name in ('model', 'manufacturer', 'version'):
                value['metadata']['internal']['node'].pop(name, None)
            value['metadata']['internal']['network'].pop('security_level', None)
        self.assertEqual(written, sample)

    def test_says_what_cannot_be_carried(self):
        ran = run('to-zigpy', example('admin.backup'))
        self.assertEqual(ran.status, 0)
        for words in (
            '1 removed device: 00124B0000000002',
            'no PAN is known',
            'no channel is known',
            'the EUI of the centre is not known',
        ):
            self.assertIn(words, ran.said)

    def test_refuses_what_the_store_refuses(self):
        rows = read(example('admin.backup'))
        for bad in (
            {**rows, 'version': 2},
            {**rows, 'extra': 1},
            {**rows, 'nets': rows['nets'] * 2},
            {**rows, 'active': 7},
        ):
            ran = run('to-zigpy', self.write('bad', json.dumps(bad)))
            self.assertEqual((ran.status, ran.output), (5, ''))
            self.assertIn('the store refuses this backup: refused 2 backup', ran.said)
        self.assertEqual(run('to-zigpy', data('zigpy.json')).status, 66)
        self.assertEqual(run('to-zigpy', example('admin.backup'), '--pan', 'xy').status, 64)


class Days(unittest.TestCase):
    def test_begun_days_count(self):
        now = datetime.datetime(2026, 1, 10, tzinfo=datetime.timezone.utc)
        for hours, days in ((0, 1), (1, 1), (24, 1), (25, 2), (-5, 1), (240, 10)):
            self.assertEqual(days_since(now - datetime.timedelta(hours=hours), now), days)
