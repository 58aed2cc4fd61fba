"""Tests of hub-log: the sessions of a run give a transcript that `tc audit` finds sound, also if an answer is lost,
and a false log doesn't."""
import os
import subprocess
import tempfile
import unittest

from hub import log, transcript
from hub.programs import TOP, find
from hub.test.runs import HostLog, audit
from hub.test.test_tables import EXAMPLES, example


# Events of the centre that change what it stores, and whose answers are lost.
LOST = (
    ('join', 'provision d 83FED3407A939723A5C639B26916D505C3B5'),
    ('join', 'deliver 1 c'),
    ('join', 'deliver 5 c'),
    ('join', 'deliver 9 c'),
    ('rollover', 'roll'),
    ('rollover', 'timer c'),
    ('rollover', 'switch'),
    ('removal', 'remove d via c'),
)


def transcript_of(lines):
    """Returns the transcript of a log."""
    return transcript.make(log.read(lines))


def seals_of(lines):
    """Returns the words of the seal lines, from the node on."""
    return [line.split(' ')[2:] for line in lines if line.split(' ')[1] == 'seal']


def cut(schedule, event):
    """Returns a log of a run whose centre is reset after an event, without the answer to that event."""
    lines = HostLog(schedule.replace(f'\n{event}\n', f'\n{event}\nreset c\nboot c\n', 1)).lines
    restart = lines.index('start', 1)
    asked = max(at for at in range(restart) if lines[at].startswith('> '))
    return [*lines[: asked + 1], *lines[restart:]]


@unittest.skipUnless(find('tc'), 'the program tc is missing')
class HubLog(unittest.TestCase):
    def test_sessions_are_sound(self):
        for name in EXAMPLES:
            with self.subTest(name):
                written = HostLog(example(name))
                made = transcript_of(written.lines)
                self.assertRegex(audit(made.text()), '^sound [0-9]+ [0-9]+ (open|locked)$')
                seals, wanted = seals_of(made.lines), seals_of(written.transcript)
                self.assertEqual(seals, [words for words in wanted if words[0] == 'c'])

    def test_a_lost_answer_is_filled_in(self):
        for name, event in LOST:
            with self.subTest(name, event=event):
                made = transcript_of(cut(example(name), event))
                self.assertRegex(audit(made.text()), '^sound ')
                self.assertEqual(len(made.notes), 1)
                self.assertIn('had no answer', made.notes[0])
                self.assertEqual(sum(line.endswith(' stopped c') for line in made.lines), 1)

    def test_a_log_that_breaks_off(self):
        lines = cut(example('join'), 'deliver 1 c')
        broken = [*lines[: lines.index('start', 1)], '< 7 floor c nwk 0001', '', *lines[lines.index('start', 1) :]]
        self.assertEqual(transcript_of(broken).text(), transcript_of(lines).text())

    def test_false_logs_are_not_sound(self):
        lines = HostLog(example('join')).lines
        again = next(line for line in lines if ' seal c nwk ' in line)
        spoilt = [line for line in lines if ' reserve c nwk' not in line]
        self.assertRegex(audit(transcript_of(spoilt).text()), '^broken [0-9]+ 4$')
        place = lines.index(again)
        twice = [*lines[: place + 1], again, *lines[place + 1 :]]
        self.assertRegex(audit(transcript_of(twice).text()), '^broken [0-9]+ 1$')

    def test_what_is_no_log(self):
        lines = HostLog(example('join')).lines
        for bad, why in (
            (['> open'], 'neither `start`'),
            (['start', '< ok 1'], 'nothing was asked'),
            ([], 'no session opened'),
            ([line.replace('> open', '> log none') for line in lines], 'no session opened'),
            ([line.replace('> backup', '> list') for line in lines], 'asks for no `backup`'),
        ):
            with self.subTest(why):
                with self.assertRaisesRegex(log.BadLog, why):
                    transcript_of(bad)

    def test_a_restore_is_no_admission(self):
        whole, event, restart = example('removal'), 'remove d via c', '\nreset c\nboot c\n'
        earlier = HostLog(whole[: whole.index(f'\n{event}\n') + 1] + restart).lines
        backup = earlier[len(earlier) - 1 - earlier[::-1].index('> backup') + 1]
        lines = HostLog(whole.replace(f'\n{event}\n', f'\n{event}{restart}', 1)).lines
        place = lines.index('start', 1) + lines[lines.index('start', 1) :].index('> backup') + 1
        with self.assertRaisesRegex(log.BadLog, 'a backup was restored'):
            transcript_of([*lines[:place], backup, *lines[place + 1 :]])

    def test_as_a_command(self):
        with tempfile.TemporaryDirectory() as folder:
            path, out = os.path.join(folder, 'log'), os.path.join(folder, 'out')
            with open(path, 'w', encoding='ascii') as file:
                file.write('\n'.join(HostLog(example('removal')).lines) + '\n')
            subprocess.run([f'{TOP}/tools/hub-log', path, '-o', out], check=True)
            with open(out, encoding='ascii') as file:
                self.assertRegex(audit(file.read()), '^sound ')
            self.assertEqual(os.stat(out).st_mode & 0o777, 0o600)
            with open(path, 'w', encoding='ascii') as file:
                file.write('hello\n')
            ran = subprocess.run([f'{TOP}/tools/hub-log', path], stderr=subprocess.PIPE, check=False)
            self.assertEqual(ran.returncode, 5)


if __name__ == '__main__':
    unittest.main()
