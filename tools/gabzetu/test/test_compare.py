"""Tests of compare: what tshark opens of the frames of transcripts is what tc opens."""
import os
import shutil
import unittest
from unittest import mock

from gabzetu.test.support import Folder, example, needs_tc, run


@unittest.skipUnless(shutil.which('tshark'), 'tshark is missing')
class Compare(Folder):
    @needs_tc
    def test_a_transcript_and_made_schedules_agree(self):
        ran = run('compare', example('join.transcript'))
        self.assertEqual(
            (ran.status, ran.output),
            (0, '12 of 12 frames agree in 20 opened layers, neither opens 0; 1 found keys, 0 differ\n'),
        )
        ran = run('compare', '--made', '2', '0')
        self.assertEqual(ran.status, 0)
        self.assertIn(', 0 differ', ran.output)

    def test_says_what_it_needs(self):
        self.assertEqual(run('compare').status, 64)
        for text, wanted in {
            'hello\n': 'line 1 is no line of a transcript',
            '0 node c centre 00124B0000000001 0000 16 4\n': 'no frames are in it',
        }.items():
            ran = run('compare', self.write('none', text))
            self.assertEqual((ran.status, ran.output), (66, ''))
            self.assertIn(wanted, ran.said)

    @needs_tc
    def test_a_difference_is_shown(self):
        """A stand-in for tshark, which opens nothing."""
        os.chmod(self.write('tshark', '#!/bin/sh\n'), 0o755)
        with mock.patch.dict(os.environ, PATH=f'{self.folder}:{os.environ["PATH"]}'):
            ran = run('compare', example('join.transcript'))
        self.assertEqual(ran.status, 1)
        self.assertIn('frame 1: tc ', ran.output)
        self.assertIn('0 of 12 frames agree', ran.output)
