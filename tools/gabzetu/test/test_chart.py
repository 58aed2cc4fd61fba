"""Tests of chart: what mscgen gets, and what is written where it fails."""
import os
import re
import shutil
import unittest

from gabzetu import charts
from gabzetu.formats import history, transcripts
from gabzetu.test.support import Folder, example, needs_tc, run

LOST = re.compile(r'-x \S+ \[label="(?:\\n)*(\d+ [A-Za-z-]+).*; lost')
needs_mscgen = unittest.skipUnless(shutil.which('mscgen'), 'mscgen is missing')


def read(path):
    with open(path, encoding='ascii') as file:
        return file.read()


class Charts(Folder):
    def chart(self, *words, given=''):
        """Draws a chart for mscgen, and returns it."""
        ran = run('chart', *words[:1], self.path('out.msc'), *words[1:], given=given)
        self.assertEqual((ran.status, ran.said), (0, ''))
        return read(self.path('out.msc'))

    def test_join(self):
        text = self.chart(example('join.transcript'))
        self.assertEqual(len(re.findall(r'; accepted at \d', text)), 9)
        self.assertEqual(LOST.findall(text), ['4 Request-Key', '6 Transport-Key', '10 Confirm-Key'])
        self.assertEqual(text.count('device 1A2B'), 2)  # the heads come again once

    def test_part(self):
        text = self.chart(example('join.transcript'), '--from', '4', '--to', '5', '--node', 'r')
        self.assertEqual(text.count('=>'), 2)

    def test_standard_input(self):
        self.assertEqual(
            self.chart('-', given=read(example('join.transcript'))), self.chart(example('join.transcript'))
        )

    def test_schedule(self):
        text = self.chart(example('join.transcript'), '--schedule', example('join.sched'))
        self.assertIn('label="17 deliver 12 d"', text)

    @needs_tc
    def test_an_arrow_for_each_receiver(self):
        self.write('removal.transcript', run('play', example('removal.sched')).output)
        text = self.chart(self.path('removal.transcript'), '--schedule', example('removal.sched'))
        arrows = [line for line in text.splitlines() if re.search(r'label="(\\n)*12\b', line) and '=>' in line]
        self.assertEqual(
            [re.search(r'(accepted|refused) at \d+', it).group() for it in arrows], ['accepted at 25', 'refused at 35']
        )

    def test_wrong_schedules_are_refused(self):
        for name in ('removal.sched', 'rollover.sched', 'join.transcript'):
            ran = run('chart', example('join.transcript'), self.path('out.msc'), '--schedule', example(name))
            self.assertEqual((ran.status, os.listdir(self.folder)), (64, []))
            self.assertIn('give the schedule that was played', ran.said)

    def test_wrong_words(self):
        ran = run('chart', example('join.transcript'), self.path('out.pdf'))
        self.assertEqual((ran.status, 'ends in none of' in ran.said), (64, True))
        ran = run('chart', example('join.transcript'), self.path('out.msc'), '--node', 'q')
        self.assertEqual((ran.status, 'the nodes are c, r, d' in ran.said), (64, True))
        ran = run('chart', example('join.sched'), self.path('out.msc'))
        self.assertEqual((ran.status, 'line 1 is no line of a transcript; this is a schedule' in ran.said), (66, True))

    @needs_mscgen
    def test_names_of_strangers(self):
        text = read(example('join.transcript')).replace(' d ', ' d"]; ').replace(' r ', ' box\\ ')
        self.write('foreign.transcript', text)
        ran = run('chart', self.path('foreign.transcript'), self.path('out.svg'))
        self.assertEqual((ran.status, ran.said), (0, ''))
        self.assertIn("d&#39;];", read(self.path('out.svg')).replace("d']", 'd&#39;]'))

    @needs_mscgen
    def test_pictures(self):
        ran = run('chart', example('join.transcript'), self.path('join.svg'), self.path('join.png'))
        self.assertEqual((ran.status, ran.said), (0, ''))
        self.assertIn('12 Confirm-Key', read(self.path('join.svg')))
        with open(self.path('join.png'), 'rb') as file:
            self.assertEqual(file.read(4), b'\x89PNG')

    @needs_tc
    @needs_mscgen
    def test_a_picture_that_is_too_large(self):
        schedule = self.write('made.sched', run('make', '60').output)
        self.write('made.transcript', run('play', schedule).output)
        ran = run('chart', self.path('made.transcript'), self.path('made.png'), self.path('made.msc'))
        self.assertEqual(ran.status, 74)
        self.assertIn('use .svg, --from/--to, --node', ran.said)
        self.assertEqual(sorted(os.listdir(self.folder)), ['made.msc', 'made.sched', 'made.transcript'])


class Labels(unittest.TestCase):
    def test_the_arrow_has_a_line_of_its_own(self):
        self.assertEqual(charts.around_arrow(['a', 'b'], ['c']), ['a', 'b', '', 'c', ''])
        self.assertEqual(charts.around_arrow(['a'], ['b', 'c']), ['', 'a', '', 'b', 'c'])

    def test_labels_fit(self):
        it = history.make_history(transcripts.read_transcript(example('join.transcript')))
        for label in re.findall(r'label="([^"]*)"', charts.make_chart(it)):
            for line in label.split('\\n'):
                self.assertLessEqual(len(line), charts.LETTERS * charts.LONGEST_SPAN)


if __name__ == '__main__':
    unittest.main()
