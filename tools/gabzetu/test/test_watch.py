"""Tests of watch: each planted fault is found, and nothing in a network in which all is right."""
import json
import os
import unittest

from gabzetu.opening import WELL_KNOWN
from gabzetu.test import captures, networks
from gabzetu.test.support import Folder, needs_tc, run
from gabzetu.test.test_open import needs_scapy, needs_tshark, opened_of

COUNT = 40
# What tc says of the findings that are verdicts: the claim of the audit that they break.
CLAIMS = {'nonce-twice': '1', 'counter-back': '2', 'replay': '2', 'key-under-well-known': '6'}


@needs_tc
@needs_scapy
@unittest.skipUnless(networks.AESCCM, 'the library cryptography is missing')
class Watch(Folder):
    def watched(self, network, *words):
        """Returns how watch ends on the capture of a network, and its findings."""
        with open(self.path('x.pcap'), 'wb') as file:
            file.write(network.pcap())
        keys = [word for key in network.known() for word in ('--key', key)]
        ran = run('watch', self.path('x.pcap'), *keys, '--json', *words)
        return ran, [json.loads(line) for line in ran.output.splitlines()]

    def with_fault(self, seed):
        """Returns a network with the fault of a seed."""
        network = networks.lived(seed)
        networks.FAULTS[seed % len(networks.FAULTS)](network)
        return network

    def test_finds_each_planted_fault(self):
        for seed in range(COUNT):
            plant = networks.FAULTS[seed % len(networks.FAULTS)]
            with self.subTest(seed=seed, fault=plant.__name__):
                network = networks.lived(seed)
                kind, number = plant(network)
                ran, found = self.watched(network)
                self.assertEqual([it['kind'] for it in found], [kind], ran.said)
                self.assertEqual(ran.status, 1)
                # the packet is the last one that was put, or its repetition for want of an acknowledgement
                self.assertIn(number - found[0]['packets'][-1], (0, 1))
                verdict = f'broken . {CLAIMS[kind]}' if kind in CLAIMS else 'hint'
                self.assertRegex(found[0]['verdict'], f'^{verdict}$')

    def test_finds_nothing_in_clean_networks(self):
        for seed in range(1000, 1000 + COUNT):
            with self.subTest(seed=seed):
                ran, found = self.watched(networks.lived(seed))
                self.assertEqual((ran.status, found), (0, []), ran.said)
                self.assertIn('0 frames stayed closed. tc audit of the rest: sound 0 ', ran.said)

    @needs_tshark
    def test_what_is_watched_is_what_tshark_decrypts(self):
        """Of some clean networks and one with each fault: the layers that are open, packet by packet, by their keys."""
        clean = [networks.lived(seed) for seed in range(1000, 1004)]
        for seed, network in enumerate([*clean, *map(self.with_fault, range(len(networks.FAULTS)))]):
            with self.subTest(seed=seed), open(self.path('x.pcap'), 'wb') as file:
                file.write(network.pcap())
                file.flush()
                keys = [word for key in network.known() for word in ('--key', key)]
                objects = map(json.loads, run('open', file.name, *keys, '--json').output.splitlines())
                theirs = captures.opened_by_tshark(file.name, [*network.known(), WELL_KNOWN], [])
                self.assertEqual(opened_of(objects), theirs)

    def test_writes_a_page(self):
        network = networks.lived(1)
        networks.key_in_clear(network)
        ran, _ = self.watched(network, '--html', self.path('page.html'))
        self.assertEqual(ran.status, 1)
        with open(self.path('page.html'), encoding='utf-8') as file:
            page = file.read()
        self.assertIn('<td>key-in-clear</td><td>hint</td>', page)
        self.assertIn("default-src 'none'", page)
        self.assertEqual(os.stat(self.path('page.html')).st_mode & 0o777, 0o600)
