"""Tests of foreign input that is too long, too large, nested or in the way: each gets a sentence and a status."""
import os
import shutil
import signal
import stat
import struct
import subprocess
import sys
import time
import unittest
from unittest import mock

from gabzetu import TOP, cli, encoded
from gabzetu.commands import audit
from gabzetu.errors import UNEXPECTED, WRONG_USE
from gabzetu.formats import diagnosis
from gabzetu.formats.numbers import read_hexadecimal, read_number
from gabzetu.test.captures import CODE, block, data
from gabzetu.test.support import Folder, example, needs_tc, run
from gabzetu.test.test_open import needs_scapy

LONG = '9' * 5000
NODE = 'node c centre 00124B0000000001 0000 8 4\n'
LONGEST = 60  # seconds, for a machine that is busy with other work


def read(path):
    with open(path, 'rb') as file:
        return file.read()


def mode_of(path):
    return stat.S_IMODE(os.stat(path).st_mode)


class Numbers(unittest.TestCase):
    def test_are_decimal_digits_of_ascii_and_few(self):
        self.assertEqual([read_number(it) for it in ('0', '4294967295', '007')], [0, 4294967295, 7])
        for text in ('', '²', '٣', '+1', '1_0', ' 1', LONG):
            self.assertIsNone(read_number(text), text[:9])

    def test_are_hexadecimal_digits_of_ascii_and_few(self):
        self.assertEqual([read_hexadecimal(it) for it in ('ff', '1A2B')], [255, 6699])
        for text in ('', '0x1', 'g', LONG):
            self.assertIsNone(read_hexadecimal(text), text[:9])


@needs_tc
class LongNumbers(Folder):
    """Numbers of more digits than Python converts."""

    def test_in_schedules(self):
        path = self.write('a.sched', f'{NODE}deliver {LONG} c\n')
        for command in ('check', 'play'):
            ran = run(command, path)
            self.assertEqual(ran.status, 5)
            self.assertIn('FRAME is a number from 1 to 4294967295', ran.output + ran.said)
        ran = run('check', self.write('b.sched', f'{NODE}deliver 0x{"f" * 5000} c\n'))
        self.assertEqual(ran.status, 5)
        ran = run('check', self.write('c.sched', f'{NODE}deliver 0{LONG} c\n'))
        self.assertIn('no leading zeros', ran.output)

    def test_in_scripts(self):
        ran = run('admin', self.path('store'), self.write('a.script', f'centre c 00124B0000000001 {LONG} 4\nlist\n'))
        self.assertEqual(ran.status, 5)
        self.assertIn('OUT is a number', ran.said)

    def test_in_transcripts_and_reports(self):
        transcript = read(example('join.transcript')).decode()
        path = self.write('a.transcript', f'{LONG} boot c\n{transcript}')
        for words in (('explain', path, '1'), ('explore', path, self.path('p.html')), ('explain', path, LONG)):
            self.assertIn(run(*words).status, (0, 64, 66))
        self.assertEqual(run('explain', path, '²').status, WRONG_USE)
        path = self.write('a.report', f'{LONG} nwk no-key\nend 1 0 0\n')
        self.assertEqual(run('explore', path, self.path('p.html')).status, 66)
        path = self.write('a.sched', f'{NODE}deliver {LONG} c\n')
        self.assertEqual(run('explore', example('join.transcript'), self.path('p.html'), '--schedule', path).status, 64)

    @needs_scapy
    def test_in_settings_of_zigbee2mqtt(self):
        numbers = ', '.join(['1'] * 15 + [LONG])
        path = self.write('configuration.yaml', f'advanced:\n  network_key: [{numbers}]\n')
        ran = run('open', data('mixed.pcap'), '--keys-from', path)
        self.assertEqual((ran.status, ran.output), (66, ''))
        self.assertIn('no keys are in it', ran.said)


@needs_tc
@needs_scapy
class OddFiles(Folder):
    def test_json_that_is_nested_deeply(self):
        path = self.write('deep.json', '[' * 200000)
        ran = run('open', data('mixed.pcap'), '--keys-from', path)
        self.assertEqual(ran.status, 66)
        self.assertIn('no keys are in it', ran.said)

    def test_broken_lines_of_open(self):
        path = self.write('a.jsonl', '{"kind": "key", [}\n')
        self.assertEqual(run('open', data('mixed.pcap'), '--keys-from', path).status, 66)

    def test_times_that_a_pcap_cannot_hold(self):
        body = bytes.fromhex('4188011A62FFFF0000') + bytes(9)
        head = block(0x0A0D0D0A, struct.pack('<IHHq', 0x1A2B3C4D, 1, 0, -1)) + block(1, struct.pack('<HHI', 230, 0, 0))
        far = 5000000000 * 1000000
        packet = block(6, struct.pack('<5I', 0, far >> 32, far & 0xFFFFFFFF, len(body), len(body)) + body)
        with open(self.path('far.pcapng'), 'wb') as file:
            file.write(head + packet)
        ran = run('wireshark', 'packets', self.path('far.pcapng'), self.path('out.pcap'))
        self.assertEqual(ran.status, 0)
        self.assertIn('1 have a time before 1970 or after 2106', ran.said)
        self.assertEqual(struct.unpack_from('<I', read(self.path('out.pcap')), 24)[0], 0xFFFFFFFF)


class Unexpected(Folder):
    """What no command foresaw becomes a sentence and a status."""

    def fail_with(self, error, *words):
        with mock.patch.object(audit, 'run', side_effect=error):
            return run('audit', 'x', *words)

    def test_an_exception_is_a_sentence(self):
        ran = self.fail_with(KeyError('boom'))
        self.assertEqual((ran.status, ran.output), (UNEXPECTED, ''))
        self.assertIn("was not foreseen (KeyError: 'boom')", ran.said)
        self.assertNotIn('Traceback', ran.said)

    def test_debug_shows_where_it_came_from(self):
        for words in (('audit', 'x', '--debug'), ('--debug', 'audit', 'x')):
            with mock.patch.object(audit, 'run', side_effect=KeyError('boom')):
                self.assertIn('Traceback', run(*words).said)

    def test_a_file_may_be_called_so(self):
        self.assertFalse(cli.wants_trace(['check', '--', '--debug']))

    def test_memory_and_depth_have_sentences_of_their_own(self):
        self.assertEqual(self.fail_with(MemoryError()).status, 6)
        self.assertIn('nested too deeply', self.fail_with(RecursionError()).said)


@needs_tc
class ManyMistakes(Folder):
    def seconds_of(self, *words):
        begun = time.process_time()
        ran = run(*words)
        return ran, time.process_time() - begun

    def test_a_hint_looks_at_the_refused_line_alone(self):
        path = self.write('a.sched', 'kock c\n' * 2000000)
        ran, seconds = self.seconds_of('play', path)
        self.assertEqual(ran.status, 5)
        self.assertIn("a.sched:1:1: 'kock c': no event of this name; did you mean 'knock NAME'?", ran.said)
        self.assertLess(seconds, 2)

    def test_check_stops_after_a_hundred(self):
        path = self.write('a.sched', 'kock c\n' * 150000)
        ran, seconds = self.seconds_of('check', '--all', path)
        self.assertEqual((ran.status, len(ran.output.splitlines())), (5, 100))
        self.assertIn('after 100 mistakes no more are looked for', ran.said)
        self.assertLess(seconds, 1)

    def test_mistakes_after_many_right_lines_are_found(self):
        path = self.write('a.sched', NODE + 'boot c\n' * 50000 + 'kock c\nfly c\n')
        ran, seconds = self.seconds_of('check', path)
        self.assertEqual([it.split(':')[1] for it in ran.output.splitlines()], ['50002', '50003'])
        self.assertLess(seconds, 2)

    def test_the_reader_skims_what_tc_took(self):
        text = (NODE + 'code d 83FED3407A939723A5C639B26916D505C3B5\n').encode()
        found = diagnosis.find_mistakes('schedule', NODE.encode() + text, 2, 1)
        self.assertEqual([(it.line, it.cause, it.earlier) for it in found], [(2, 'duplicate-node', 1)])

    def test_a_long_line_is_read_in_part(self):
        for text in ('say ' + ' ' * 8000000 + 'x\n', 'x' * 8000000, 'boot ' + 'c ' * 4000000):
            ran, seconds = self.seconds_of('check', self.write('a.sched', text))
            self.assertEqual(ran.status, 5)
            self.assertLess(seconds, 2)


@needs_tc
class LongInput(Folder):
    def test_is_read_no_further_than_tc_reads(self):
        with open(self.path('zeros'), 'wb') as file:
            file.truncate(3 << 30)
        for words in (('play',), ('sniff',)):
            ran = run(*words, self.path('zeros'))
            self.assertIn(ran.status, (5, 9), ran.said)

    def test_without_end_is_too_long(self):
        ran = subprocess.run(
            ['sh', '-c', 'yes | "$0" "$1" play -', sys.executable, os.path.join(TOP, 'gabzetu')],
            capture_output=True,
            text=True,
            timeout=LONGEST,
            check=False,
        )
        self.assertEqual(ran.returncode, 9)
        self.assertIn('too long', ran.stderr)


@needs_tc
class SameFile(Folder):
    def kept(self, name, *words):
        before = read(self.path(name))
        ran = run(*words)
        self.assertEqual((ran.status, ran.output), (WRONG_USE, ''), words)
        self.assertIn('which it would overwrite', ran.said)
        self.assertEqual(read(self.path(name)), before)

    def test_no_command_overwrites_its_input(self):
        for name in ('join.sched', 'join.transcript', 'join.capture', 'join.report'):
            source = data(name) if name == 'join.report' else example(name)
            shutil.copy(source, self.path(name))
        shutil.copy(data('mixed.pcap'), self.path('x.pcap'))
        os.symlink(self.path('join.sched'), self.path('link'))
        schedule, transcript, capture = (self.path(f'join.{it}') for it in ('sched', 'transcript', 'capture'))
        self.kept('join.sched', 'play', schedule, '-o', schedule)
        self.kept('join.sched', 'play', schedule, '-o', self.path('link'))
        self.kept('join.capture', 'inspect', capture, '-o', capture)
        self.kept('join.transcript', 'audit', transcript, '-o', transcript)
        self.kept('join.transcript', 'explore', transcript, transcript)
        self.kept('join.sched', 'explore', transcript, schedule, '--schedule', schedule)
        self.kept('x.pcap', 'open', self.path('x.pcap'), '--to-capture', self.path('x.pcap'))
        self.kept('join.transcript', 'open', self.path('x.pcap'), '--keys-from', transcript, '--to-capture', transcript)
        self.kept('x.pcap', 'wireshark', 'packets', self.path('x.pcap'), self.path('x.pcap'))
        self.kept('join.transcript', 'wireshark', 'keys', transcript, transcript)
        self.write('a.script', 'centre c 00124B0000000001 8 4\nlist\n')
        self.kept('a.script', 'admin', self.path('store'), self.path('a.script'), '-o', self.path('a.script'))
        self.write('a.scn', 'centre c\n')
        self.kept('a.scn', 'scenario', self.path('a.scn'), '-o', self.path('a.scn'))
        shutil.copy(data('zigpy.json'), self.path('z.json'))
        self.kept('z.json', 'from-zigpy', self.path('z.json'), '-o', self.path('z.json'))

    def test_other_outputs_may_exist(self):
        self.write('out', 'before')
        self.assertEqual(run('play', example('join.sched'), '-o', self.path('out')).status, 0)
        self.assertEqual(run('play', example('join.sched'), '-o', os.devnull).status, 0)


@needs_tc
class Private(Folder):
    """Files with keys may be read by their owner alone."""

    def test_new_files_with_keys(self):
        transcript = example('join.transcript')
        words = {
            'keys': ('wireshark', 'keys', transcript, self.path('keys')),
            'report': ('inspect', example('join.capture'), '-o', self.path('report')),
            'transcript': ('play', example('join.sched'), '-o', self.path('transcript')),
            'page': ('explore', transcript, self.path('page')),
            'key': ('install', CODE, '-o', self.path('key')),
        }
        for name, it in words.items():
            self.assertEqual((name, run(*it).status, mode_of(self.path(name))), (name, 0, 0o600))
        self.assertEqual(run('audit', transcript, '-o', self.path('verdict')).status, 0)
        self.assertEqual(mode_of(self.path('verdict')), 0o644)

    @needs_scapy
    def test_captures_with_keys(self):
        run('open', data('mixed.pcap'), '--code', CODE, '--to-capture', self.path('out'))
        self.assertEqual(mode_of(self.path('out')), 0o600)


class Names(Folder):
    """Names of files, whatever their bytes."""

    def test_are_encoded_and_decoded(self):
        for name in ('a b', 'x\ty', 'x\ny', '%41', "it's", 'Größe', os.fsdecode(b'x\xff'), '$(x)', '\u202e'):
            text = encoded.encode(name)
            self.assertEqual(encoded.decode(text), name)
            self.assertTrue(text.isprintable(), text)
        self.assertLessEqual(len(encoded.result_name('\n' * 250, 7)), 200)

    @needs_tc
    @needs_scapy
    @unittest.skipUnless(shutil.which('parallel'), 'parallel is missing')
    def test_captures_of_any_name_are_opened(self):
        os.mkdir(self.path('captures'))
        names = ['a b.pcap', '-x.pcap', 'x\t\ny.pcap', os.fsdecode(b"it's {1} \xff.pcap"), 'w' * 250]
        for name in names:
            shutil.copy(data('mixed.pcap'), os.path.join(self.path('captures'), name))
        ran = run('campaigns', 'captures', self.path('captures'), self.path('out'), '--code', CODE)
        self.assertEqual((ran.status, ran.output), (0, f'{len(names)} reports in {self.path("out")}/calls\n'))
        for number, name in enumerate(sorted(names), 1):
            result = os.path.join(self.path('out'), 'calls', encoded.result_name(name, number))
            self.assertIn(b'23 frames: 16 opened', read(result))
            self.assertEqual(mode_of(result), 0o600)


@needs_scapy
class Signals(Folder):
    def test_a_signal_leaves_nothing(self):
        """The stand-in for tc says that it runs, and never ends."""
        tc = self.write('tc', f'#!/bin/sh\ntouch {self.path("runs")}\nexec sleep 600\n')
        os.chmod(tc, 0o700)
        front = [sys.executable, os.path.join(TOP, 'gabzetu')]
        words = ['open', data('mixed.pcap'), '--to-capture', self.path('out')]
        for number in (signal.SIGTERM, signal.SIGHUP):
            with subprocess.Popen(
                [*front, *words], env={**os.environ, 'GABZETU_TC': tc}, stderr=subprocess.PIPE, stdout=subprocess.PIPE
            ) as process:
                self.await_file('runs')
                process.send_signal(number)
                said = process.communicate(timeout=LONGEST)
            self.assertEqual((process.returncode, said), (128 + number, (b'', b'')))
            os.unlink(self.path('runs'))
            self.assertEqual(os.listdir(self.folder), ['tc'])

    def await_file(self, name):
        for _ in range(LONGEST * 20):
            if os.path.exists(self.path(name)):
                return
            time.sleep(0.05)
        self.fail(f'no {name}')
