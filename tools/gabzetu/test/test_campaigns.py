"""Tests of campaigns: totals, the first run that ended with no, going on, and a folder of captures under keys."""
import os
import shutil
import stat
import unittest

from gabzetu.test.captures import CODE, LINK, data
from gabzetu.test.support import Folder, example, needs_tc, run
from gabzetu.test.test_open import needs_scapy

# A program in place of tc. Each run of a campaign has two seals and an acceptance, and that of 1009 ends with no.
STAND_IN = '''#!/bin/sh
awk -v count="$2" -v start="$3" 'BEGIN {
    for (i = 0; i < count; i++) print i, "end 5 2 1 0", (start + i == 1009 ? "no" : "yes"), "yes"
    print "total", count, 2 * count, count, 0
}'
'''


def read(path):
    with open(path, encoding='utf-8') as file:
        return file.read()


class Schedule(Folder):
    def test_is_the_made_schedule(self):
        """made.sched, for one router, was worked out apart from this repository."""
        self.assertEqual(run('campaigns', 'schedule', '0', '1').output, read(data('made.sched')))
        self.assertEqual(run('campaigns', 'schedule', '0', '61').status, 64)

    @needs_tc
    def test_is_that_of_make(self):
        self.assertEqual(run('campaigns', 'schedule', '0', '8').output, run('make', '8').output)


@unittest.skipUnless(shutil.which('parallel'), 'parallel is missing')
class Campaigns(Folder):
    def stand_in(self):
        path = self.write('tc', STAND_IN)
        os.chmod(path, os.stat(path).st_mode | stat.S_IXUSR)
        return path

    def test_totals_come_together_and_nothing_is_done_twice(self):
        results, tc = self.path('runs'), self.stand_in()
        for _ in range(2):
            ran = run('campaigns', 'runs', '2500', '0', results, tc=tc)
            self.assertEqual(
                (ran.status, ran.output.splitlines()),
                (
                    1,
                    [
                        'total 2500 5000 2500 0',
                        'the first run that ended with no: run 9 of campaign 1000 1000, made of 1009 for 2, in '
                        f'{results}/first.sched',
                    ],
                ),
            )
            self.assertEqual(len(read(f'{results}/jobs').splitlines()), 4)
        self.assertEqual(read(f'{results}/first.sched'), run('campaigns', 'schedule', '1009', '2').output)
        self.assertEqual(run('campaigns', 'runs', '2000', '0', results, tc=tc).status, 64)

    def test_options_go_to_parallel(self):
        ran = run(
            'campaigns', 'runs', '10', '0', self.path('runs'), '-j', '1', '--parallel=--delay 0', tc=self.stand_in()
        )
        self.assertEqual((ran.status, ran.output), (0, 'total 10 20 10 0\n'))

    @needs_tc
    @needs_scapy
    def test_captures_are_opened_with_keys(self):
        captures = self.path('captures')
        os.mkdir(captures)
        for name in (data('mixed.pcap'), example('sniffers.pcapng'), example('join.capture')):
            shutil.copy(name, captures)
        self.write('captures/bad.capture', 'boom\n')
        ran = run('campaigns', 'captures', captures, self.path('reports'), '--code', CODE)
        self.assertEqual(
            (ran.status, ran.output.splitlines()),
            (
                1,
                [
                    f'3 reports in {self.path("reports")}/calls',
                    'the first call that failed: bad.capture ended with status 5',
                ],
            ),
        )
        self.assertIn('23 frames: 16 opened', read(self.path('reports/calls/mixed.pcap')))
        self.assertIn('7 frames: 7 opened', read(self.path('reports/calls/sniffers.pcapng')))
        self.assertIn(f'key 1 {LINK} given', read(self.path('reports/calls/join.capture')))
        self.assertIn('refused at line 1', read(self.path('reports/calls/bad.capture.err')))

    def test_says_what_cannot_be_done(self):
        os.mkdir(self.path('empty'))
        self.assertEqual(run('campaigns', 'captures', self.path('empty'), self.path('reports')).status, 66)
        self.assertEqual(run('campaigns', 'captures', self.path('none'), self.path('reports')).status, 66)
        self.assertEqual(run('campaigns', 'runs', '0', '0', self.path('runs')).status, 64)
