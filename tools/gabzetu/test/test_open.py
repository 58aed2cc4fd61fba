"""Tests of open: every link type, packet numbers, addresses, keys, reasons, pipes, files that grow."""
import contextlib
import functools
import gzip
import io
import json
import os
import random
import shutil
import signal
import subprocess
import sys
import time
import unittest
from unittest import mock

from gabzetu import TOP
from gabzetu.capture import Capture
from gabzetu.cli import main
from gabzetu.errors import Stop
from gabzetu.formats import mac
from gabzetu.formats.checks import Checks, check_of
from gabzetu.formats.links import Wrapped
from gabzetu.formats.packets import import_scapy, read_packets
from gabzetu.formats.sources import open_source
from gabzetu.opening import MOST_KEYS, WELL_KNOWN, Ring
from gabzetu.test import captures, support
from gabzetu.test.captures import CODE, LINK, data, packets_of, pcap
from gabzetu.test.support import Folder, Ran, needs_tc

LONGEST = 600  # seconds, for a machine that is busy with other work
FIRST, SECOND = '000102030405060708090A0B0C0D0E0F', '101112131415161718191A1B1C1D1E1F'
OTHER_LINKS = ('606162636465666768696A6B6C6D6E6F', '707172737475767778797A7B7C7D7E7F')
OPENED = {
    6: (LINK,),
    **{number: (FIRST,) for number in range(7, 18)},
    13: (FIRST, LINK),
    27: (WELL_KNOWN,),
    28: (FIRST,),
    29: (SECOND,),
    30: (FIRST,),
}


def has_scapy():
    try:
        return bool(import_scapy())
    except Stop:
        return False


needs_scapy = unittest.skipUnless(has_scapy(), 'python3-scapy is missing')
needs_tshark = unittest.skipUnless(shutil.which('tshark'), 'tshark is missing')


def run(*words):
    """Runs gabzetu as support.run does, but in this process, so that scapy is imported once."""
    output, said = io.StringIO(), io.StringIO()
    with contextlib.redirect_stdout(output), contextlib.redirect_stderr(said):
        status = main(words)
    return Ran(status, output.getvalue(), said.getvalue())


def objects_of(ran):
    return [json.loads(line) for line in ran.output.splitlines()]


def opened_of(objects):
    """Returns the keys of the opened layers by the number of the packet."""
    rows = {
        it['packet']: tuple(layer['key'] for layer in it['layers'] if 'key' in layer)
        for it in objects
        if it['kind'] == 'packet'
    }
    return {number: keys for number, keys in rows.items() if keys}


def reasons_of(objects, kind='reason'):
    return {it['reason']: (it['count'], it['first']) for it in objects if it['kind'] == kind}


@needs_tc
@needs_scapy
class Links(Folder):
    def write_bytes(self, name, content):
        with open(self.path(name), 'wb') as file:
            file.write(content)
        return self.path(name)

    def test_opens_the_same_of_each_link_type(self):
        for name, (content, _) in captures.every_link(packets_of('mixed.pcap')).items():
            with self.subTest(name):
                path = self.write_bytes('capture', content)
                ran = run('open', path, '--code', CODE, '--json')
                self.assertEqual(ran.status, 0, ran.said)
                self.assertEqual(opened_of(objects_of(ran)), OPENED)

    @needs_tshark
    def test_opens_with_the_keys_of_tshark(self):
        for name, (content, options) in captures.every_link(packets_of('mixed.pcap')).items():
            if options is None:
                continue
            with self.subTest(name):
                path = self.write_bytes('capture', content)
                theirs = captures.opened_by_tshark(path, [LINK, WELL_KNOWN], options)
                self.assertEqual({number: keys for number, keys in theirs.items() if number in OPENED}, OPENED)

    def test_reads_what_gzip_packed_and_sections_one_after_the_other(self):
        packets = packets_of('mixed.pcap')
        path = self.write_bytes('packed', gzip.compress(pcap(230, packets)))
        self.assertEqual(opened_of(objects_of(run('open', path, '--code', CODE, '--json'))), OPENED)
        path = self.write_bytes(
            'sections',
            captures.pcapng(230, packets[:10]) + captures.pcapng(195, list(map(captures.with_check, packets[10:]))),
        )
        self.assertEqual(opened_of(objects_of(run('open', path, '--code', CODE, '--json'))), OPENED)

    def test_reads_every_kind_of_block_of_pcapng(self):
        for kind in ('plain', 'simple', 'old', 'big-endian', 'several interfaces'):
            with self.subTest(kind):
                path = self.write_bytes('blocks', captures.pcapng_of(kind, packets_of('mixed.pcap')))
                ran = run('open', path, '--code', CODE, '--json')
                self.assertEqual((ran.status, opened_of(objects_of(ran))), (0, OPENED))

    @needs_tshark
    def test_has_the_numbers_and_times_of_tshark(self):
        packets = packets_of('mixed.pcap')
        for name, content in (('daintree', captures.daintree(packets)), ('modified', captures.modified(230, packets))):
            with self.subTest(name):
                path = self.write_bytes(name, content)
                fields = '-e frame.number -e frame.time_epoch -e frame.len'.split()
                words = ['tshark', '-r', path, '-T', 'fields', *fields]
                theirs = subprocess.run(words, capture_output=True, text=True, check=True).stdout
                with contextlib.closing(open_source(path)) as source:
                    packets_here = list(read_packets(path, source))
                mine = [f'{it.number}\t{it.time:.9f}\t{it.whole}' for it in packets_here]
                self.assertEqual(mine, theirs.splitlines())

    @unittest.skipUnless(shutil.which('editcap'), 'editcap is missing')
    def test_reads_the_modified_pcap_of_wireshark(self):
        path = self.write_bytes('plain', pcap(230, packets_of('mixed.pcap')))
        subprocess.run(['editcap', '-F', 'modpcap', path, self.path('modified')], check=True)
        self.assertEqual(opened_of(objects_of(run('open', self.path('modified'), '--code', CODE, '--json'))), OPENED)

    def test_reads_daintree_as_far_as_it_goes(self):
        whole = captures.daintree(packets_of('mixed.pcap'))
        lines = whole.splitlines(keepends=True)
        later = [lines[0], lines[1], b'# a comment\n', b'\n', *lines[2:], lines[7].rstrip()]
        self.assertEqual(opened_of(self.open_bytes(b''.join(later)))[31], (LINK,))
        for bad, reason in (
            ([b'1 2 3\r\n', *lines], 'its line has no number, time, length and bytes'),
            ([b'1 2.5 1 0102030405\n', *lines], 'its line has 5 bytes, and says 1'),
            ([b'1 2.5 99 010'], 'the file ends within it'),
        ):
            objects = self.open_bytes(b''.join([*lines[:8], *bad]))
            self.assertEqual((list(opened_of(objects)), reasons_of(objects, 'left-out')[reason]), ([6], (1, 7)))
        self.assertIn('a line of more than 4096 bytes', run('open', self.write('long', '#Format=4' + '9' * 5000)).said)
        self.assertIn('gabzetu inspect', run('open', self.write('text', '#For us\nframe 0802\n')).said)
        said = run('inspect', self.write('x', '#Format=4\n# \n1 2\n')).said
        self.assertIn('a capture of Daintree: `gabzetu open`', said)

    def open_bytes(self, content):
        return objects_of(run('open', self.write_bytes('capture', content), '--code', CODE, '--json'))

    def test_says_what_a_file_is_that_is_no_capture(self):
        self.assertEqual(run('open', self.path('none')).status, 66)
        self.assertIn('no capture file', run('open', self.write('words', 'hello')).said)
        self.assertIn('gabzetu inspect', run('open', self.write('text', 'frame 0802\n')).said)
        half = self.write_bytes('half', pcap(230, packets_of('mixed.pcap'))[:700])
        objects = objects_of(run('open', half, '--code', CODE, '--json'))
        self.assertIn('the file ends within it', reasons_of(objects, 'left-out'))
        self.assertIn(6, opened_of(objects))


@needs_tc
@needs_scapy
class Open(Folder):
    def open(self, name, *words):
        return objects_of(run('open', data(name), '--json', *words))

    def test_says_why_the_rest_stays_closed(self):
        objects = self.open('mixed.pcap', '--code', CODE)
        self.assertEqual(
            reasons_of(objects, 'left-out'),
            {
                'MAC command': (3, 1),
                'beacon': (1, 2),
                'acknowledgement': (1, 4),
                'security at the MAC': (1, 24),
                '802.15.4-2015 data frame': (1, 25),
            },
        )
        self.assertEqual(
            reasons_of(objects),
            {
                'PAN 1A62: network key of sequence 0 is known and does not open it: '
                'broken on the air, a level other than 5, or another key': (4, 18),
                'PAN 9999: no network key of it is known': (1, 26),
                'Green Power frame (NWK version 3), which is not read': (1, 22),
                'inter-PAN frame (NWK type 3), which is not read': (1, 23),
            },
        )
        self.assertEqual(
            objects[-1],
            {
                'kind': 'end',
                'packets': 30,
                'frames': 23,
                'opened': 16,
                'partly': 0,
                'closed': 7,
                'clear': 0,
                'hints': [],
            },
        )

    def test_says_which_key_sequence_and_which_link_key_are_unknown(self):
        objects = self.open('mixed.pcap', '--key', FIRST)
        self.assertEqual(reasons_of(objects)['APS: link key of 1A2B and 0000 is not known'], (1, 13))
        self.assertEqual(reasons_of(objects)['APS: link key (transport) of 0000 and 1A2B is not known'], (1, 6))
        self.assertEqual(opened_of(objects)[13], (FIRST,))
        self.write_pcap('rollover', 230, packets_of('mixed.pcap')[27:29])
        objects = objects_of(run('open', self.path('rollover'), '--key', SECOND, '--json'))
        self.assertEqual(reasons_of(objects), {'PAN 1A62: network key of sequence 0 is not known': (1, 1)})

    def test_writes_a_line_for_each_frame_and_the_keys(self):
        lines = run('open', data('mixed.pcap'), '--code', CODE).output.splitlines()
        line = next(it for it in lines if it.startswith('packet 13 '))
        self.assertEqual(
            line.split(),
            (
                'packet 13 pan 1A62 1A2B > 0000 nwk key 3, aps key 1 data '
                'data, cluster 0500 Intruder Alarm System Zone, command 00 of the cluster, 5 bytes'
            ).split(),
        )
        self.assertIn(f'  key 4   {SECOND}  found in packet 28, which key 3 opened', lines)
        self.assertIn('30 packets, 23 frames: 16 opened, 0 opened in part, 7 closed, 0 not secured', lines)
        self.assertIn('      1  security at the MAC (packet 24)', lines)

    def test_learns_addresses_by_network(self):
        objects = self.open('two-pans.pcap', '--code', CODE, *(word for key in OTHER_LINKS for word in ('--key', key)))
        opened = opened_of(objects)
        self.assertEqual(
            {number: keys[-1] for number, keys in opened.items()},
            {1: OTHER_LINKS[0], 2: LINK, 4: OTHER_LINKS[0], 5: LINK, 6: OTHER_LINKS[1], 7: LINK, 8: FIRST},
        )
        self.assertEqual(objects[-1]['opened'], 7)

    def test_hints_at_check_sequences(self):
        packets = packets_of('mixed.pcap')
        self.write_pcap('with', 230, map(captures.with_check, packets))
        hints = objects_of(run('open', self.path('with'), '--code', CODE, '--fcs', 'none', '--json'))[-1]['hints']
        self.assertIn('does the file carry check sequences', hints[0])
        self.write_pcap('without', 195, packets)
        hints = objects_of(run('open', self.path('without'), '--code', CODE, '--fcs', 'crc', '--json'))[-1]['hints']
        self.assertIn('Nearly all check sequences are wrong', hints[0])
        said = run('open', self.path('without'), '--code', CODE).said
        self.assertIn(
            'packets of link type 195 should end with a check sequence. These end with no check sequence', said
        )

    def test_one_port_of_zep(self):
        ether = bytes(12) + b'\x08\0'
        self.write_pcap('port', 1, [ether + captures.udp(captures.zep(it), 17755) for it in packets_of('mixed.pcap')])
        self.assertIn('30 packets to UDP port 17755 begin with a ZEP header', run('open', self.path('port')).said)
        ran = run('open', self.path('port'), '--zep-port', '17756')
        self.assertIn('30  ZEP packet of another port (the first is packet 1)', ran.output)
        self.assertIn('30 packets to UDP port 17755 look like ZEP: leave out --zep-port', ran.output)
        self.assertEqual(run('open', self.path('port'), '--zep-port', '17755').said, '')

    def test_other_packets_to_other_ports_are_no_zep(self):
        ether, zep = bytes(12) + b'\x08\0', captures.zep(packets_of('mixed.pcap')[0])
        self.write_pcap('port', 1, [ether + captures.udp(it, 9999) for it in (b'EX', zep[:31], zep[:-1], zep + b'\0')])
        self.assertIn('4  no ZEP packet (the first is packet 1)', run('open', self.path('port')).output)

    def test_refuses_what_is_no_key_or_code(self):
        ran = run('open', data('mixed.pcap'), '--code', '00')
        self.assertEqual((ran.status, ran.output), (64, ''))
        self.assertIn('--code 00: no install code', ran.said)
        self.assertIn('32 hexadecimal digits', run('open', data('mixed.pcap'), '--key', 'AB').said)

    def test_writes_a_text_capture_that_inspect_opens(self):
        ran = run('open', data('mixed.pcap'), '--code', CODE, '--to-capture', self.path('out'))
        self.assertEqual(ran.status, 0)
        with open(self.path('out'), encoding='ascii') as file:
            lines = file.read().splitlines()
        self.assertEqual(lines[0], f'key {LINK}')
        self.assertIn('# packet 28', lines)
        self.assertIn('addr 1A2B 00124B0000000002', lines)
        report = support.run('inspect', self.path('out')).output.splitlines()
        self.assertEqual(report[-1], 'end 23 4 3')
        self.assertIn('8 aps key 1 data 00124B0000000002 9 0902000000', report)

    def test_two_networks_give_a_text_capture_too(self):
        run('open', data('two-pans.pcap'), '--code', CODE, '--to-capture', self.path('out'))
        self.assertEqual(support.run('inspect', self.path('out')).status, 0)

    def write_pcap(self, name, link, packets):
        with open(self.path(name), 'wb') as file:
            file.write(pcap(link, list(packets)))


@needs_tc
@needs_scapy
class Live(Folder):
    def start(self, *words, **how):
        command = [sys.executable, os.path.join(TOP, 'gabzetu'), 'open', *words, '--code', CODE, '--follow', '--json']
        # a shell lets what it runs in the background ignore interrupts
        heed = functools.partial(signal.signal, signal.SIGINT, signal.SIG_DFL)
        # no buffer: what one reader takes into it another one misses
        how = {'stdout': subprocess.PIPE, 'stderr': subprocess.PIPE, 'preexec_fn': heed, 'bufsize': 0, **how}
        process = subprocess.Popen(command, **how)
        self.addCleanup(process.wait)
        self.addCleanup(process.kill)
        return process

    def first_packets(self, process, last):
        """Returns the packets that are written up to one of them."""
        objects = []
        while not objects or objects[-1]['packet'] != last:
            objects.append(json.loads(process.stdout.readline()))
        return opened_of(objects)

    def test_a_pipe_shows_packets_as_they_come(self):
        content = pcap(230, packets_of('mixed.pcap'))
        process = self.start('-', stdin=subprocess.PIPE)
        process.stdin.write(content[:1000])
        process.stdin.flush()
        self.assertIn(6, self.first_packets(process, 12))
        output, _ = process.communicate(content[1000:], timeout=LONGEST)
        self.assertEqual([it['kind'] for it in map(json.loads, output.splitlines())][-1], 'end')
        self.assertIn(29, opened_of(map(json.loads, output.splitlines())))

    def test_a_file_shows_packets_as_it_grows_until_it_is_interrupted(self):
        content = pcap(230, packets_of('mixed.pcap'))
        with open(self.path('growing'), 'wb') as file:
            file.write(content[:1000])
            file.flush()
            process = self.start(self.path('growing'))
            self.assertIn(6, self.first_packets(process, 12))
            time.sleep(0.5)
            file.write(content[1000:])
            file.flush()
            self.assertIn(29, self.first_packets(process, 30))
        process.send_signal(signal.SIGINT)
        output, _ = process.communicate(timeout=LONGEST)
        self.assertEqual(json.loads(output.splitlines()[-1])['packets'], 30)
        self.assertEqual(process.returncode, 0)

    def test_frames_open_later_by_a_key_that_comes_later(self):
        packets = packets_of('two-pans.pcap')
        process = self.start('-', stdin=subprocess.PIPE)
        process.stdin.write(pcap(230, packets[1:2]))
        process.stdin.flush()
        self.assertEqual(json.loads(process.stdout.readline())['layers'], [{'kind': 'nwk', 'reason': 'no-key'}])
        output, _ = process.communicate(pcap(230, packets[4:5])[24:], timeout=LONGEST)
        objects = list(map(json.loads, output.splitlines()))
        self.assertEqual(opened_of(objects), {1: (FIRST, LINK), 2: (LINK,)})
        self.assertEqual(objects[-1]['opened'], 2)


@needs_tc
@needs_scapy
class Parts(Folder):
    def test_long_captures_are_opened_in_parts_and_earlier_ones_once_more(self):
        """Parts of three packets: the key of packet 1 is in packet 4, and the address of packet 7 in packet 8."""
        words = ['--code', CODE, *(word for key in OTHER_LINKS for word in ('--key', key))]
        with mock.patch('gabzetu.capture.MOST_FRAMES', 3), mock.patch('gabzetu.opening.MOST_FRAMES', 2):
            objects = objects_of(run('open', data('two-pans.pcap'), '--json', *words))
        packets = [it for it in objects if it['kind'] == 'packet']
        self.assertEqual(
            [(it['packet'], it.get('again', False)) for it in packets],
            [(1, False), (2, False), (4, False), (5, False), (6, False), (7, False), (8, False), (1, True), (2, True)],
        )
        self.assertEqual(opened_of(objects)[1][-1], OTHER_LINKS[0])
        self.assertEqual((objects[-1]['opened'], objects[-1]['closed']), (7, 0))

    def test_more_keys_than_a_run_takes(self):
        keys = [f'{number:032X}' for number in range(1, 300)]
        self.write('keys', ''.join(f'"{key}","Normal",""\n' for key in keys))
        objects = objects_of(
            run('open', data('mixed.pcap'), '--keys-from', self.path('keys'), '--code', CODE, '--json')
        )
        self.assertEqual(opened_of(objects), OPENED)


def mutated(rng, content):
    """Returns the bytes of a capture of which some are other ones, or which ends early."""
    content = bytearray(content)
    for _ in range(rng.choice([1, 2, 5, 20])):
        content[rng.randrange(rng.choice([60, len(content)]))] = rng.randrange(256)
    return content[: rng.randrange(1, len(content))] if rng.randrange(4) == 0 else content


@needs_scapy
class Broken(Folder):
    def test_broken_captures_are_read_as_far_as_they_go_or_refused(self):
        originals = [content for content, _ in captures.every_link(packets_of('mixed.pcap')).values()]
        originals += [captures.pcapng_of(kind, packets_of('mixed.pcap')) for kind in ('simple', 'old', 'big-endian')]
        for seed in range(300):
            rng = random.Random(seed)
            with self.subTest(seed), open(self.path('broken'), 'wb') as file:
                file.write(mutated(rng, rng.choice(originals)))
                file.flush()
                with contextlib.suppress(Stop):
                    list(Capture(file.name).parts())


class Macs(unittest.TestCase):
    def test_an_association_gives_an_address(self):
        header = b'\x63\xcc\x01' + b'\x62\x1a' + bytes.fromhex('02000000004B1200') + bytes(8)
        given = mac.read_association(header + b'\x02\x2b\x1a\x00')
        self.assertEqual(given, ('1A62', '1A2B', '00124B0000000002'))
        self.assertIsNone(mac.read_association(header + b'\x02\xff\xff\x01'))
        self.assertIsNone(mac.read_association(header[:9]))

    def test_evidence_decides_on_check_sequences(self):
        acknowledgement, poll = b'\x02\x00\x07', b'\x63\x88\x01\x62\x1a\x00\x00\x2b\x1a\x04'
        cases = [
            ('crc', lambda it: it + check_of(it)),
            ('none', lambda it: it),
            ('ti', lambda it: it + b'\xd0\xe4'),
            ('ignore', lambda it: it + b'\x00\x00'),
        ]
        for said in ('crc', 'none'):
            for wanted, ended in cases:
                with self.subTest((said, wanted)):
                    checks = Checks()
                    packets = [ended(it) for it in (acknowledgement, poll, acknowledgement)]
                    wrapped = [Wrapped(it, len(it), said, 'kind') for it in packets]
                    for it in wrapped:
                        checks.learn(it)
                    self.assertEqual(checks.how(wrapped[0]), wanted)
                    self.assertEqual(checks.take_off(wrapped[1])[0], poll)


class Rings(unittest.TestCase):
    def test_many_keys_are_shared_out_with_the_network_keys_in_each(self):
        ring = Ring()
        for number in range(600):
            ring.add(f'{number:032X}', 'given')
        ring.network.add(f'{599:032X}')
        shares = ring.shares()
        self.assertEqual({key for share in shares for key in share}, set(ring.keys))
        self.assertTrue(all(len(share) <= MOST_KEYS and share[0] == f'{599:032X}' for share in shares))
