"""Tests of wireshark: keys and frames that tshark takes, and the packets of a capture under their numbers.

join.report was written by an inspector that was written apart from this one, join.commands are those of the schedule
that was played, and sniffers.pcapng and sniffers.pcap, its packets, by Wireshark's text2pcap, editcap and
mergecap."""
import os
import shutil
import struct
import subprocess
import unittest

from gabzetu.test.captures import CODE, data, packets_of
from gabzetu.test.support import Folder, example, needs_tc, run
from gabzetu.test.test_open import FIRST, SECOND, needs_scapy

needs_tshark = unittest.skipUnless(shutil.which('tshark'), 'tshark is missing')


def read(path):
    with open(path, encoding='ascii') as file:
        return file.read()


def records_of(path):
    """Returns time, whole length and bytes of the packets of a pcap."""
    with open(path, 'rb') as file:
        content = file.read()
    at, records = 24, []
    while at < len(content):
        seconds, _, kept, whole = struct.unpack_from('<IIII', content, at)
        records.append((seconds, whole, content[at + 16 : at + 16 + kept]))
        at += 16 + kept
    return records


class Keys(Folder):
    def test_of_a_report(self):
        self.assertEqual(run('wireshark', 'keys', data('join.report')).output, read(data('join.keys')))
        run('wireshark', 'keys', data('join.report'), self.path('keys'))
        self.assertEqual(read(self.path('keys')), read(data('join.keys')))

    def test_of_a_transcript_and_of_the_own_file(self):
        text = run('wireshark', 'keys', example('join.transcript')).output
        self.assertIn('"000102030405060708090A0B0C0D0E0F","Normal","tc: network key 0 of the start"', text)
        again = run('wireshark', 'keys', self.write('keys', text)).output
        self.assertEqual([line[:34] for line in again.splitlines()], [line[:34] for line in text.splitlines()])

    def test_says_that_a_file_has_no_keys(self):
        ran = run('wireshark', 'keys', self.write('none', 'hello\n'))
        self.assertEqual((ran.status, ran.output), (66, ''))
        self.assertIn('no keys are in it', ran.said)

    def test_foreign_labels_stay_in_their_line(self):
        key = '00' * 16
        text = f'"{key}","Normal","x\t\x1b[31m"\n'
        self.assertEqual(run('wireshark', 'keys', self.write('keys', text)).output, f'"{key}","Normal","tc: x[31m"\n')

    @needs_tc
    @needs_scapy
    def test_of_a_capture_have_the_numbers_of_its_packets(self):
        for words in ([], ['--json']):
            opened = run('open', data('mixed.pcap'), '--code', CODE, *words).output
            text = run('wireshark', 'keys', self.write('opened', opened)).output
            self.assertIn(f'"{SECOND}","Normal","tc: key 4, found in packet 28"', text.splitlines())
        with open(data('mixed.pcap'), 'rb') as file:
            report = self.report_of(file)
        text = run('wireshark', 'keys', self.write('report', report), '--capture', data('mixed.pcap')).output
        self.assertIn(f'"{FIRST}","Normal","tc: key 2, found in packet 6"', text.splitlines())

    def report_of(self, file):
        from gabzetu.program import find_tc

        return subprocess.run(
            [find_tc(), 'sniff', '1', CODE], stdin=file, capture_output=True, text=True, check=True
        ).stdout


class Frames(Folder):
    @needs_tshark
    def test_tshark_reads_the_command_of_each_frame_of_a_join(self):
        self.assertEqual(run('wireshark', 'frames', example('join.transcript'), self.path('join.pcap')).status, 0)
        run('wireshark', 'keys', data('join.report'), self.path('zigbee_pc_keys'))
        command = [
            'tshark',
            '-r',
            self.path('join.pcap'),
            '-T',
            'fields',
            '-e',
            'frame.number',
            '-e',
            'zbee_aps.cmd.id',
        ]
        ran = subprocess.run(
            command,
            capture_output=True,
            text=True,
            check=True,
            env={**os.environ, 'WIRESHARK_CONFIG_DIR': self.folder},
        )
        self.assertEqual(ran.stdout, read(data('join.commands')))

    def test_the_second_is_the_event(self):
        run('wireshark', 'frames', example('join.transcript'), self.path('join.pcap'))
        events = [
            int(line.split()[0]) for line in read(example('join.transcript')).splitlines() if line.split()[1] == 'send'
        ]
        self.assertEqual([seconds for seconds, _, _ in records_of(self.path('join.pcap'))], events)

    def test_says_what_is_no_transcript(self):
        ran = run('wireshark', 'frames', example('join.sched'), self.path('out'))
        self.assertEqual(ran.status, 66)
        self.assertEqual(os.listdir(self.folder), [])
        self.assertEqual(run('wireshark', 'frames', self.path('none'), self.path('out')).status, 66)


@needs_scapy
class Packets(Folder):
    def test_keep_their_numbers(self):
        ran = run('wireshark', 'packets', example('sniffers.pcapng'), self.path('out'))
        self.assertEqual(ran.status, 0)
        self.assertIn('gabzetu: 7 of 13 packets written', ran.said)
        self.assertIn('1 left empty: wrong check sequence, says the chip (the first is packet 9)', ran.said)
        bodies = [body for _, _, body in records_of(self.path('out'))]
        self.assertEqual([number for number, body in enumerate(bodies, 1) if not body], [2, 3, 9, 11, 12, 13])
        whole = [body for _, size, body in records_of(data('sniffers.pcap')) if size == len(body)]
        self.assertEqual([body for body in bodies if body], whole)

    def test_lose_their_check_sequences(self):
        run('wireshark', 'packets', data('mixed.pcap'), self.path('out'))
        self.assertEqual([body for _, _, body in records_of(self.path('out'))], packets_of('mixed.pcap'))

    def test_leave_no_file_where_there_are_none(self):
        ran = run('wireshark', 'packets', self.write('text', 'hello'), self.path('out'))
        self.assertEqual((ran.status, os.listdir(self.folder)), (66, ['text']))
