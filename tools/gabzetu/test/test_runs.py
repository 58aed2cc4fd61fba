"""Tests of the commands that run tc on a file: output, JSON lines, statuses, and what is told of faults."""
import fcntl
import json
import os
import re
import stat
import unittest
from unittest import mock

from gabzetu import TOP
from gabzetu.commands import admin
from gabzetu.formats import fields
from gabzetu.test.support import Folder, example, needs_tc, run

JOIN = example('join.sched')
CODE = '83FED3407A939723A5C639B26916D505C3B5'


def read(path):
    with open(path, encoding='ascii') as file:
        return file.read()


def read_page(path):
    with open(path, encoding='utf-8') as file:
        return file.read()


@needs_tc
class Play(Folder):
    def test_writes_the_transcript(self):
        ran = run('play', JOIN)
        self.assertEqual((ran.status, ran.said), (0, ''))
        self.assertEqual(ran.output, read(example('join.transcript')))

    def test_writes_a_file(self):
        ran = run('play', JOIN, '-o', self.path('out'))
        self.assertEqual((ran.status, ran.output), (0, ''))
        self.assertEqual(read(self.path('out')), read(example('join.transcript')))
        self.assertEqual(os.listdir(self.folder), ['out'])

    def test_leaves_the_output_of_a_failed_command_as_it_was(self):
        self.write('bad', 'boom\n')
        self.write('out', 'before')
        ran = run('play', self.path('bad'), '-o', self.path('out'))
        self.assertEqual((ran.status, ran.output), (5, ''))
        self.assertIn('refused at line 1: syntax: the line is no declaration and no event', ran.said)
        self.assertIn('gabzetu help schedule', ran.said)
        self.assertEqual(sorted(os.listdir(self.folder)), ['bad', 'out'])
        self.assertEqual(read(self.path('out')), 'before')

    def test_reads_standard_input(self):
        ran = run('play', '-', given=read(JOIN))
        self.assertEqual(ran.output, read(example('join.transcript')))

    def test_writes_an_object_a_line(self):
        ran = run('play', JOIN, '--json')
        objects = [json.loads(line) for line in ran.output.splitlines()]
        self.assertEqual(len(objects), len(read(example('join.transcript')).splitlines()))
        self.assertNotIn('other', {it['kind'] for it in objects})
        self.assertEqual(
            objects[0],
            {
                'event': 0,
                'kind': 'node',
                'name': 'c',
                'role': 'centre',
                'eui': '00124B0000000001',
                'short': '0000',
                'out': 16,
                'in': 4,
            },
        )
        self.assertEqual(
            objects[-1],
            {'kind': 'end', 'events': 17, 'seals': 19, 'accepts': 13, 'refusals': 0, 'ideal': True, 'private': True},
        )

    def test_says_what_cannot_be_read_or_written(self):
        self.assertEqual(run('play', self.path('none')).status, 66)
        self.assertEqual(run('play', JOIN, '-o', self.path('none/out')).status, 74)
        self.assertEqual(run('play').status, 64)

    def test_says_where_the_program_is_missing(self):
        ran = run('play', JOIN, tc='/none')
        self.assertEqual(ran.status, 69)
        self.assertIn("GABZETU_TC is '/none'", ran.said)


@needs_tc
class Others(Folder):
    def test_audits(self):
        self.assertEqual(run('audit', example('join.transcript')).output, 'sound 19 13 locked\n')
        ran = run('audit', '--json', example('join.transcript'))
        self.assertEqual(json.loads(ran.output), {'kind': 'sound', 'seals': 19, 'accepts': 13, 'word': 'locked'})

    def test_a_broken_claim_is_an_answer(self):
        lines = read(example('join.transcript')).splitlines(keepends=True)
        self.write('broken', ''.join(it for it in lines if not it.startswith('6 start d')))
        ran = run('audit', self.path('broken'))
        self.assertEqual((ran.status, ran.output), (10, 'broken 30 4\n'))
        ran = run('audit', self.path('broken'), '--json')
        self.assertEqual(json.loads(ran.output), {'kind': 'broken', 'line': 30, 'claim': 4})

    def test_inspects(self):
        self.assertTrue(run('inspect', example('join.capture')).output.endswith('end 12 3 3\n'))
        last = run('inspect', example('join.capture'), '--json', '-j', '1').output.splitlines()[-1]
        self.assertEqual(json.loads(last), {'kind': 'end', 'frames': 12, 'keys': 3, 'rounds': 3})

    def test_sniffs(self):
        pcap = os.path.join(TOP, 'tools', 'data', 'sniffers.pcap')
        self.assertTrue(run('sniff', pcap, CODE).output.endswith('packets 9 0 2\n'))
        self.assertIn('magic', run('sniff', JOIN, CODE).said)
        ran = run('sniff', pcap, CODE[:-1] + '6')
        self.assertEqual(ran.status, 2)
        self.assertIn('the CRC of the bytes before is B5C3', ran.said)

    def test_makes_and_plays_campaigns(self):
        self.assertEqual(run('make', '1').output, read(os.path.join(TOP, 'tools', 'data', 'made.sched')))
        self.assertEqual(run('campaign', '4').output.splitlines()[-1], 'total 4 155 94 206')
        ran = run('make', '61')
        self.assertEqual((ran.status, ran.output), (2, ''))
        self.assertIn('N is a number from 1 to 60.', ran.said)

    def test_says_what_is_wrong_with_a_code(self):
        self.assertEqual(run('install', CODE).output, '66B6900981E1EE3CA4206B6B861C02BB\n')
        self.assertIn('character 1 (counted from 0)', run('install', '0G').said)
        self.assertIn('it has 1 byte(s)', run('install', '00').said)


@needs_tc
class Admin(Folder):
    def test_serves_a_script(self):
        ran = run('admin', self.path('hub.store'), example('admin.script'))
        self.assertEqual((ran.status, ran.said), (0, ''))
        self.assertEqual(
            [it for it in ran.output.splitlines() if it.startswith('ok')], ['ok 4', 'ok 5', 'ok 6', 'ok 7', 'ok 8']
        )
        self.assertEqual(stat.S_IMODE(os.stat(self.path('hub.store')).st_mode), 0o600)

    def test_writes_an_object_a_line(self):
        run('admin', self.path('hub.store'), example('admin.script'), '--json', '-o', self.path('said'))
        objects = [json.loads(line) for line in read(self.path('said')).splitlines()]
        self.assertEqual(objects[0], {'kind': 'ok', 'line': 4})
        self.assertEqual(
            [it['kind'] for it in objects], ['ok', 'ok', 'net', 'link', 'ok', 'send', 'ok', 'backup', 'ok']
        )

    def test_a_refused_script_changes_nothing(self):
        self.write('said', 'before')
        ran = run('admin', self.path('hub.store'), JOIN, '-o', self.path('said'))
        self.assertEqual(ran.status, 5)
        self.assertIn('the first line is the centre', ran.said)
        self.assertEqual(read(self.path('said')), 'before')

    def test_a_store_that_others_may_read_is_reported(self):
        run('admin', self.path('hub.store'), example('admin.script'))
        os.chmod(self.path('hub.store'), 0o644)
        ran = run('admin', self.path('hub.store'), example('admin.script'))
        self.assertEqual(ran.status, 0)
        self.assertIn(f'gabzetu: others may read or write {self.path("hub.store")}, which holds keys', ran.said)

    def test_a_second_run_at_the_same_time_is_refused(self):
        run('admin', self.path('hub.store'), example('admin.script'))
        with open(self.path('hub.store'), 'rb') as store:
            before = store.read()
            fcntl.flock(store, fcntl.LOCK_EX)
            ran = run('admin', self.path('hub.store'), example('admin.script'))
        self.assertEqual((ran.status, ran.output), (13, ''))
        self.assertIn('busy: another process has the store open. The file is as it was', ran.said)
        with open(self.path('hub.store'), 'rb') as store:
            self.assertEqual(store.read(), before)

    def test_an_input_of_another_kind_is_named(self):
        for words, name, what in (
            (['play'], 'join.transcript', 'a transcript: `gabzetu audit` judges it'),
            (['play'], 'join.capture', 'a text capture: `gabzetu inspect` reads it'),
            (['audit'], 'join.sched', 'a schedule: `gabzetu play` writes its transcript'),
            (['inspect'], 'join.sched', 'a schedule: `gabzetu play` writes its transcript'),
            (['admin', self.path('hub.store')], 'join.sched', 'a schedule: `gabzetu play` writes its transcript'),
            (['play'], 'admin.script', 'a script: `gabzetu admin` carries it out'),
        ):
            ran = run(*words, example(name))
            self.assertEqual((ran.status, ran.said.endswith(f'\n  {example(name)}: this is {what}\n')), (5, True))

    def test_a_path_that_can_be_no_store_is_explained(self):
        os.symlink(self.path('gone'), self.path('link'))
        os.mkfifo(self.path('fifo'))
        for path, why in {
            self.path('none/hub.store'): f'there is no folder {self.path("none")}',
            self.path('.'): 'it is a folder',
            self.path('link'): 'it is a link to nowhere',
            self.path('fifo'): 'it is no regular file',
        }.items():
            ran = run('admin', path, example('admin.script'))
            self.assertEqual((ran.status, ran.output), (7, ''))
            self.assertIn(f'\n  {path}: {why}\n', ran.said)

    def test_the_cache_of_the_store_is_dropped(self):
        path = self.write('hub.store', 'x' * 8192)
        calls = mock.Mock()
        with mock.patch.multiple(os, fsync=calls.fsync, posix_fadvise=calls.advise):
            admin.drop_cache(path)
        self.assertEqual([it[0] for it in calls.mock_calls], ['fsync', 'advise'])
        self.assertEqual(calls.advise.call_args[0][1:], (0, 0, os.POSIX_FADV_DONTNEED))

    def test_no_cache_to_drop_is_no_fault(self):
        os.mkfifo(self.path('pipe'))
        for name in ('none', '.', 'pipe'):
            admin.drop_cache(self.path(name))
        self.assertEqual(os.listdir(self.folder), ['pipe'])

    def test_a_store_that_cannot_be_synced_is_not_served(self):
        path = self.write('hub.store', '')
        with mock.patch.object(os, 'fsync', side_effect=OSError(5, 'Input/output error')):
            ran = run('admin', path, example('admin.script'))
        self.assertEqual((ran.status, ran.output), (74, ''))
        self.assertIn('hub.store: cannot be synced: input/output error. Look at the disk and run it again', ran.said)
        self.assertEqual(os.path.getsize(path), 0)

    def test_says_that_a_file_is_no_store(self):
        self.write('hub.store', 'x' * 200)
        ran = run('admin', self.path('hub.store'), example('admin.script'))
        self.assertEqual((ran.status, ran.output), (8, ''))
        self.assertIn('no store: there is no store in this file', ran.said)


class Page(unittest.TestCase):
    """The names of the fields are on the page."""

    def test_the_page_has_each_field(self):
        page = read_page(os.path.join(TOP, 'docs', 'FORMATS.md')).split('\n## JSON lines of gabzetu\n')[1]
        shown = set(re.findall('`([a-z]+)`', page))
        tables = [fields.REPORT, fields.LAYERS, fields.STORE, fields.VERDICTS, {'end': [fields.END, fields.TERM]}]
        for kind, forms in [it for table in tables for it in table.items()]:
            names = re.sub('=[a-z]+', '', ' '.join(forms)).split()
            self.assertEqual({kind, *names} - shown, set(), kind)


if __name__ == '__main__':
    unittest.main()
