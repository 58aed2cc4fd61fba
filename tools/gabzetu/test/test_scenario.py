"""Tests of scenario: the three examples, each step, and its messages. What it writes is a schedule that tc plays."""
import json
import os
import re
import unittest

from gabzetu import TOP
from gabzetu.scenarios import language
from gabzetu.test.support import Folder, example, needs_tc, run

HEAD = """centre hub
router lamp
device sensor
code lamp auto
code sensor auto
key auto
"""


def read(path):
    with open(path, encoding='utf-8') as file:
        return file.read()


@needs_tc
class Scenario(Folder):
    def written(self, text):
        """Returns the lines of the schedule of a scenario, without comments and empty lines, and checks that tc
        plays it."""
        path = self.write('x.scn', text)
        ran = run('scenario', path)
        self.assertEqual((ran.status, ran.said), (0, ''))
        self.assertEqual(run('play', '-', given=ran.output).status, 0)
        self.all = ran.output
        return [it for it in ran.output.splitlines() if it and not it.startswith('#')]

    def said(self, text):
        ran = run('scenario', self.write('x.scn', text))
        self.assertEqual((ran.status, ran.output), (65, ''))
        return ran.said.replace(self.path('x.scn'), 'x.scn')

    def test_the_examples(self):
        ends = {
            'sleeping-device': 'end 41 32 29 1 yes yes',
            'removed-by-mistake': 'end 39 28 28 1 yes yes',
            'first-frame-lost': 'end 13 10 9 0 yes yes',
        }
        for name, end in ends.items():
            ran = run('scenario', example(f'{name}.scn'))
            self.assertEqual((ran.status, ran.said), (0, ''))
            transcript = run('play', '-', given=ran.output)
            self.assertEqual(transcript.output.splitlines()[-1], end)
            self.assertTrue(run('audit', '-', given=transcript.output).output.startswith('sound '))
            for line in read(example(f'{name}.scn')).splitlines():
                self.assertTrue({line, f'#: {line}'} & set(ran.output.splitlines()), line)

    def test_a_join_at_the_centre(self):
        lines = self.written(HEAD + 'join sensor\n')
        self.assertEqual(
            lines[7:],
            [
                'provision sensor 47A6119A235F143F0B48B11434B4A9E8DE86',
                'knock sensor',
                'child hub sensor join',
                'deliver 1 sensor',
                'timer sensor',
                'deliver 2 hub',
                'deliver 3 sensor',
                'timer sensor',
                'deliver 4 hub',
                'deliver 5 sensor',
            ],
        )

    def test_a_join_through_a_router(self):
        lines = self.written(HEAD + 'join lamp\njoin sensor via lamp\n')
        self.assertEqual(
            lines[-10:-6], ['child lamp sensor join', 'deliver 6 hub', 'deliver 7 lamp', 'deliver 8 sensor']
        )

    def test_the_supply_is_as_long_as_is_needed(self):
        for text, count in (('', 0), ('join lamp\n', 1), ('join lamp\nrollover\nrollover\n', 3)):
            self.assertEqual(sum(it.startswith('draw ') for it in self.written(HEAD + text)), count)

    def test_own_draws_stay(self):
        lines = self.written(HEAD + 'draw auto\ndraw A0A1A2A3A4A5A6A7A8A9AAABACADAEAF\njoin lamp\n')
        self.assertEqual(sum(it.startswith('draw ') for it in lines), 2)

    def test_a_rollover_leaves_sleepers_out(self):
        lines = self.written(HEAD + 'join lamp\njoin sensor\nrollover but sensor\n')
        self.assertEqual(
            lines[lines.index('roll') :],
            ['roll', 'timer hub', 'deliver 11 lamp', 'timer hub', 'switch', 'deliver 13 lamp'],
        )

    def test_sixty_joins_take_seconds(self):
        names = [f'd{number}' for number in range(60)]
        lines = ['centre hub', *(f'device {it}' for it in names), *(f'code {it} auto' for it in names), 'key auto']
        lines += [*(f'join {it}' for it in names), *['rollover'] * 3]
        begun = sum(os.times()[:4])
        ran = run('scenario', self.write('x.scn', '\n'.join([*lines, ''])))
        self.assertEqual((ran.status, ran.said), (0, ''))
        self.assertLess(sum(os.times()[:4]) - begun, 30)
        self.assertTrue(run('play', '-', given=ran.output).output.endswith('end 1146 843 1020 0 yes yes\n'))

    def test_a_lost_frame_is_delivered_to_nobody(self):
        text = HEAD + 'admit sensor\nchild hub sensor join\nlose last\n'
        self.assertIn('#! frame 1 is lost\n', self.written(text) and self.all)
        self.assertIn(
            'frame 1, the last one, was lost in line 9; no other one went out since',
            self.said(text + 'deliver last sensor\n'),
        )
        self.assertIn('frame 5, the last one, was delivered already', self.said(HEAD + 'join sensor\nlose last\n'))

    def test_refusals_are_noted(self):
        self.written(HEAD + 'join lamp\nremove lamp\nsend lamp hub 00\ndeliver last hub lamp\n')
        notes = [it for it in self.all.splitlines() if it.startswith('#! refused')]
        self.assertEqual(len(notes), 3)
        self.assertIn('#! refused by lamp: event no-key (the node has no usable active network key)', notes)

    def test_pairs_and_restarts(self):
        text = (
            HEAD
            + 'join lamp\njoin sensor\npair lamp sensor\ntell lamp sensor 0102\ndeliver last sensor\nrestart sensor\n'
        )
        lines = self.written(text)
        self.assertEqual(
            lines[-8:],
            [
                'deliver 11 hub',
                'deliver 12 lamp',
                'share sensor lamp',
                'deliver 13 sensor',
                'tell lamp sensor 0102',
                'deliver 14 sensor',
                'reset sensor',
                'boot sensor',
            ],
        )
        self.assertNotIn('#! refused', self.all)

    def test_another_seed_gives_other_keys(self):
        one, other = self.written('seed one\n' + HEAD), self.written('seed two\n' + HEAD)
        self.assertEqual(one[:3], other[:3])
        self.assertNotIn(one[3], other)
        self.assertEqual(one, self.written('seed one\n' + HEAD))

    def test_check_takes_scenarios(self):
        path = example('first-frame-lost.scn')
        self.assertTrue(run('check', path).output.endswith('first-frame-lost.scn: a scenario, right\n'))
        ran = run('check', self.write('x.scn', 'centre hub\njion x\nroll\nlose frame\n'))
        self.assertEqual((ran.status, ran.said), (65, ''))
        self.assertIn("x.scn:2:1: 'jion x'", ran.output)
        self.assertIn("x.scn:4:6: 'frame': the word 'last' belongs here ('lose last')", ran.output)
        ran = run('check', '--json', self.path('x.scn'))
        self.assertEqual([json.loads(it)['line'] for it in ran.output.splitlines()], [2, 4])

    def test_a_scenario_without_a_centre_lacks_it_at_its_end(self):
        self.assertIn("x.scn:2: 'end': no line declares a centre", self.said('device d\n'))

    def test_plain_lines_stay(self):
        text = read(example('join.sched'))
        self.assertEqual(self.written(text), [it for it in text.splitlines() if it and not it.startswith('#')])

    def test_says_what_is_wrong(self):
        self.assertIn(
            "x.scn:7:1: 'jion lamp': no line of a scenario of this name; did you mean 'join NAME'?",
            self.said(HEAD + 'jion lamp\n'),
        )
        self.assertIn(
            "x.scn:4: 's' has no install code: write 'code s auto'",
            self.said('centre hub\nkey auto\ndevice s\njoin s\n'),
        )
        self.assertIn("x.scn:8: 'confirm lamp'", self.said(HEAD + 'admit lamp\nconfirm lamp\n'))
        self.assertIn("x.scn:8: 'lamp' is confirmed already", self.said(HEAD + 'join lamp\nconfirm lamp\n'))
        self.assertIn(
            "its step 'rejoin lamp' is refused by lamp: event wrong-state", self.said(HEAD + 'return lamp\n')
        )
        self.assertIn(
            "x.scn:7: 'lamb': no node of this name is declared before this line; did you mean 'lamp'?",
            self.said(HEAD + 'knock lamb\nroll\n'),
        )
        self.assertIn(
            "x.scn:2: 'centre': there is a centre already (line 1)", self.said('centre hub\ncentre hub2\nroll\n')
        )
        self.assertIn('x.scn:8: a declaration after an event', self.said(HEAD + 'roll\nrouter x\n'))
        self.assertIn('x.scn:7: no frame is on the air yet', self.said(HEAD + 'deliver last hub\n'))


class Page(unittest.TestCase):
    def test_the_page_has_each_line(self):
        page = read(os.path.join(TOP, 'docs', 'SCENARIOS.md'))
        lines = set(re.findall('`([^`\n]+)`', re.sub('```.*?```', '', page, flags=re.DOTALL)))
        for form in language.DECLARATIONS + language.STEPS:
            self.assertIn(form.text, lines)


if __name__ == '__main__':
    unittest.main()
