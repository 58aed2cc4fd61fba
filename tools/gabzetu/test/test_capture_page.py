"""Tests of what is said of captures: a page in one command, filters, one vocabulary, and pcapng as Wireshark counts."""
import json
import re
import shutil
import struct
import subprocess
import unittest

from gabzetu.formats import names
from gabzetu.test import captures
from gabzetu.test.captures import CODE, block, data, packets_of
from gabzetu.test.support import Folder, needs_tc, run
from gabzetu.test.test_open import needs_scapy, needs_tshark

SECTION = block(0x0A0D0D0A, struct.pack('<IHHq', 0x1A2B3C4D, 1, 0, -1))


def interface(options=b''):
    return block(1, struct.pack('<HHI', 230, 0, 0) + options)


def packet(body, number=0, time=0):
    return block(6, struct.pack('<5I', number, time >> 32, time & 0xFFFFFFFF, len(body), len(body)) + body)


def data_of(path):
    """Returns the data of a page."""
    with open(path, encoding='utf-8') as file:
        found = re.search('<script id="data" type="application/json">(.*?)</script>', file.read(), re.S)
    return json.loads(found[1])


@needs_tc
@needs_scapy
class Page(Folder):
    def test_is_made_of_a_capture_at_once(self):
        ran = run('explore', data('mixed.pcap'), self.path('page.html'), '--code', CODE)
        self.assertEqual((ran.status, ran.said, ran.output), (0, '', ''))
        page = data_of(self.path('page.html'))
        opened = {it['packet']: it for it in map(json.loads, page['text'].splitlines())}
        listed = run('open', data('mixed.pcap'), '--code', CODE, '--json').output.splitlines()
        wanted = {it['packet']: it for it in map(json.loads, listed) if it['kind'] == 'packet'}
        self.assertEqual(opened, wanted)
        self.assertEqual([it[0] for it in page['frames']], sorted(wanted))
        keys = [it['key'] for it in map(json.loads, listed) if it['kind'] == 'key']
        self.assertEqual([it[1] for it in page['keys']], keys)

    def test_has_the_words_of_open(self):
        run('explore', data('mixed.pcap'), self.path('page.html'), '--code', CODE)
        page = data_of(self.path('page.html'))
        words = {row[0]: page['texts'][row[4]] for row in page['frames']}
        wanted = '^data, cluster 0500 Intruder Alarm System Zone, command 00 of the cluster, 5 bytes'
        self.assertRegex(words[13], wanted)

    def test_is_made_of_a_capture_of_daintree(self):
        with open(self.path('x.dcf'), 'wb') as file:
            file.write(captures.daintree(packets_of('mixed.pcap')))
        self.assertEqual(run('explore', self.path('x.dcf'), self.path('page.html'), '--code', CODE).status, 0)
        run('explore', data('mixed.pcap'), self.path('other.html'), '--code', CODE)
        page, other = data_of(self.path('page.html')), data_of(self.path('other.html'))
        self.assertEqual((page['frames'], page['keys']), (other['frames'], other['keys']))

    def test_says_what_keys_are_for(self):
        ran = run('explore', data('join.report'), self.path('page.html'), '--code', CODE)
        self.assertEqual(ran.status, 64)
        self.assertIn('keys are for a capture', ran.said)


@needs_tc
@needs_scapy
class Filters(Folder):
    def numbers(self, *words):
        lines = run('open', data('mixed.pcap'), '--code', CODE, *words).output.splitlines()
        return [int(it.split()[it.split().index('packet') + 1]) for it in lines if ' pan 1A62 ' in it and '>' in it]

    def test_choose_the_lines(self):
        everything = self.numbers()
        self.assertEqual(self.numbers('--type', 'transport'), [6, 27, 28])
        self.assertEqual(self.numbers('--from', '1a2b', '--type', 'cluster 0500'), [13])
        self.assertTrue(set(self.numbers('--failed')) < set(everything))
        self.assertEqual(self.numbers('--pan', 'FFFF'), [])

    def test_times_are_since_the_first_frame(self):
        lines = run('open', data('mixed.pcap'), '--code', CODE, '--times', '--type', 'transport').output.splitlines()
        self.assertEqual(lines[1].split()[:4], ['21.000000', 's', 'packet', '27'])


class Names(unittest.TestCase):
    @needs_tshark
    def test_are_those_of_wireshark(self):
        values = subprocess.run(['tshark', '-G', 'values'], capture_output=True, text=True, check=True).stdout
        heads = ('R\tzbee_aps.cluster', 'R\tzbee_aps.profile')
        rows = [it.split('\t') for it in values.splitlines() if it.startswith(heads)]
        known = {(it[1], int(it[2], 16)): it[4] for it in rows if it[2] == it[3]}
        for number, name in names.CLUSTERS.items():
            self.assertEqual(known['zbee_aps.cluster', number], name)
        for number in names.PROFILES:
            self.assertIn(('zbee_aps.profile', number), {**known, ('zbee_aps.profile', 0xC05E): ''})

    def test_of_headers(self):
        self.assertEqual(names.network_command(b'\x08'), 'Link Status')
        self.assertEqual(names.network_command(b'\x7f'), 'NWK command 7F')
        self.assertEqual(names.data_words(0, 0x8005, b'\0\0\0\0'), 'ZDP Active Endpoints Response, 4 bytes')
        report = names.data_words(0x0104, 6, b'\x18\x01\x0a' + bytes(4))
        self.assertEqual(report, 'data, cluster 0006 On/Off, Report Attributes, 7 bytes')
        self.assertEqual(names.data_words(0x0104, 6, b''), 'data, cluster 0006 On/Off, 0 bytes')
        self.assertEqual(names.data_words(0x0104, 0xFC12, None), 'data, cluster FC12, sealed')


@needs_tc
@needs_scapy
class Pcapng(Folder):
    def opened(self, content):
        with open(self.path('x.pcapng'), 'wb') as file:
            file.write(content)
        return [json.loads(it) for it in run('open', self.path('x.pcapng'), '--json').output.splitlines()]

    def test_adds_the_offset_of_the_interface(self):
        options = struct.pack('<HHqHH', 14, 8, 1700000000, 0, 0)
        found = self.opened(SECTION + interface(options) + packet(packets_of('mixed.pcap')[6], time=2500000))
        self.assertEqual(found[0]['time'], 1700000002.5)

    def test_counts_blocks_as_wireshark_does(self):
        """Custom blocks, journals and events have numbers; names, statistics, secrets and unknown ones have none."""
        body = packets_of('mixed.pcap')[6]
        counted = [(0x0BAD, bytes(8)), (0x40000BAD, bytes(8)), (9, b'__REALTIME_TIMESTAMP=1\n\n')]
        counted += [(kind, bytes(44)) for kind in (0x204, 0x216, 0x221)]
        others = [(4, bytes(4)), (5, bytes(12)), (10, struct.pack('<II', 0x544C534B, 4) + b'abc\n'), (0xDEF, bytes(4))]
        numbers = []
        for kind, content in [*counted, *others]:
            found = self.opened(SECTION + interface() + block(kind, content) + packet(body))
            numbers.append(found[0]['packet'])
            if shutil.which('tshark'):
                self.assertEqual(self.number_of_tshark(), found[0]['packet'], hex(kind))
        self.assertEqual(numbers, [2] * len(counted) + [1] * len(others))

    def number_of_tshark(self):
        """Returns the number that tshark gives to the packet with a frame."""
        words = ['tshark', '-r', self.path('x.pcapng'), '-Y', 'wpan', '-T', 'fields', '-e', 'frame.number']
        return int(subprocess.run(words, capture_output=True, check=True).stdout)

    def test_says_which_interface_is_missing(self):
        body = packets_of('mixed.pcap')[6]
        found = self.opened(SECTION + interface() + packet(body) + packet(body, 3))
        self.assertEqual(found[0]['packet'], 1)
        reasons = [it.get('reason') for it in found]
        self.assertIn('it is of interface 3, and the file describes 1', reasons)


@needs_tc
@needs_scapy
class UnderTheNetworkKey(unittest.TestCase):
    def test_is_called_so(self):
        """The frame is one of a test network: its NWK layer is open, and its APS layer says key identifier 1."""
        from gabzetu.capture import Frame
        from gabzetu.formats.headers import try_nwk
        from gabzetu.formats.reasons import Known, why_closed
        from gabzetu.opening import Layer

        payload = bytes.fromhex('21012D') + bytes(4) + bytes(8) + b'\0' + bytes(8)
        frame = bytes.fromhex('08020000010001010028') + bytes(12) + b'\0' + bytes(20)
        frame = Frame(1, 0.0, '1A62', '0000', '0001', frame, try_nwk(frame))
        layers = [
            Layer('nwk', 'A' * 32, None, '0' * 16, 1, payload.hex().upper(), None),
            Layer('aps', None, None, None, None, None, 'malformed'),
        ]
        self.assertEqual(why_closed(frame, layers, Known()), 'APS layer under the network key, which is not read')
