"""Tests of check: the table of mistakes, and that it never calls a file right that tc refuses.

The tables are tools/data/mistakes/{schedules,captures,scripts}: `# what is wrong`, lines of the file after `> `
(with escapes of Python; <base> is a schedule that is right), what tc says after `! `, and each mistake that is
reported after `= `."""
import json
import os
import random
import unittest

from gabzetu import TOP, program
from gabzetu.commands import check
from gabzetu.formats import diagnosis
from gabzetu.test.support import Folder, example, needs_tc, run

BASE = """node c centre 00124B0000000001 0000 8 4
node r router 00124B0000000003 3C4D 8 4
node d device 00124B0000000002 1A2B 8 4
code d 83FED3407A939723A5C639B26916D505C3B5
netkey c 000102030405060708090A0B0C0D0E0F 0
draw A0A1A2A3A4A5A6A7A8A9AAABACADAEAF"""

TABLES = {'schedules': 'schedule', 'captures': 'capture', 'scripts': 'script'}


def read_cases(table):
    """Yields the name of each case, its file, what tc says, and the mistakes."""
    with open(os.path.join(TOP, 'tools', 'data', 'mistakes', table), encoding='ascii') as file:
        for block in file.read().rstrip('\n').split('\n\n'):
            lines = block.split('\n')
            text = ''.join(it[2:].replace('<base>', BASE) + '\n' for it in lines if it.startswith('> '))
            data = text.encode('latin-1').decode('unicode_escape').encode('latin-1')
            said = next(it[2:] for it in lines if it.startswith('! '))
            yield lines[0][2:], data, said, [it[2:] for it in lines if it.startswith('= ')]


@needs_tc
class Table(unittest.TestCase):
    def test_there_are_enough_mistakes(self):
        self.assertGreaterEqual(sum(len(list(read_cases(table))) for table in TABLES), 120)

    def test_each_mistake_has_its_message(self):
        for table, kind in TABLES.items():
            for name, data, said, wanted in read_cases(table):
                with self.subTest(table=table, name=name):
                    verdict = check.ask_tc(kind, data)
                    self.assertEqual(f'refused {verdict.line} {verdict.cause}', said)
                    found = check.mistakes_of(kind, data, verdict)
                    self.assertEqual([check.describe(it) for it in found], wanted)
                    self.assertEqual((found[0].line, found[0].cause), (verdict.line, verdict.cause))


def mutated(rng, data):
    """Returns a text with one thing changed at random: a letter, a word or a line less, twice, or another one."""
    lines = data.split(b'\n')
    at = rng.randrange(len(lines))
    words = lines[at].split(b' ')
    kind = rng.randrange(5)
    if kind == 0:
        lines[at] = lines[at][:-1]
    elif kind == 1:
        words[rng.randrange(len(words))] = rng.choice(rng.choice(lines).split(b' '))
    elif kind == 2:
        rng.shuffle(words)
    elif kind == 3:
        words.insert(rng.randrange(len(words) + 1), rng.choice([b'', b'-', b'0', b'd', b'00', b'FFFF', b'\xc3']))
    else:
        lines.insert(rng.randrange(len(lines)), lines[at])
    if kind in (1, 2, 3):
        lines[at] = b' '.join(words)
    return b'\n'.join(lines)


@needs_tc
class Agreement(unittest.TestCase):
    """On texts with one thing changed, the first mistake is the line that tc refuses, for the same cause."""

    def test_schedules(self):
        self.agree('schedule', 'join.sched', 150)

    def test_captures(self):
        self.agree('capture', 'join.capture', 50)

    def test_scripts(self):
        self.agree('script', 'admin.script', 50)

    def agree(self, kind, name, count):
        with open(example(name), 'rb') as file:
            data = file.read()
        for number in range(count):
            text = mutated(random.Random(number), data)
            verdict = check.ask_tc(kind, text)
            found = diagnosis.find_mistakes(kind, text)
            with self.subTest(kind=kind, number=number):
                self.assertEqual(
                    [(it.line, it.cause) for it in found[:1]], [(verdict.line, verdict.cause)] if verdict.line else []
                )


@needs_tc
class Command(Folder):
    def test_takes_the_examples(self):
        names = ['join.sched', 'removal.sched', 'join.capture', 'admin.script']
        ran = run('check', *map(example, names))
        self.assertEqual((ran.status, ran.said), (0, ''))
        self.assertEqual(
            [it.split(': ')[1] for it in ran.output.splitlines()],
            ['a schedule, right', 'a schedule, right', 'a capture, right', 'a script, right'],
        )

    def test_shows_the_place_and_a_near_word(self):
        path = self.write('join.sched', 'node c centre 00124B0000000001 0000 8 4\n\nkock d\n')
        ran = run('check', path)
        self.assertEqual(ran.status, 5)
        self.assertEqual(ran.output, f"{path}:3:1: 'kock d': no event of this name; did you mean 'knock NAME'?\n")

    def test_writes_an_object_a_mistake(self):
        path = self.write('twice', BASE + '\ndraw A0A1A2A3A4A5A6A7A8A9AAABACADAEAF\n')
        wanted = {
            'file': path,
            'line': 7,
            'column': 6,
            'text': 'A0A1A2A3A4A5A6A7A8A9AAABACADAEAF',
            'message': 'this is the key of a draw',
            'cause': 'draw-repeated',
            'earlier': 6,
        }
        self.assertEqual(json.loads(run('check', '--json', path).output), wanted)

    def test_notes_frames_that_were_never_sent(self):
        path = self.write('late', BASE + '\ndeliver 3 d\n')
        ran = run('check', path)
        self.assertEqual(ran.status, 0)
        self.assertIn(f"{path}:7:9: note: '3': this frame was not sent before; 0 frames were", ran.output)

    def test_says_what_an_input_of_another_kind_is(self):
        ran = run('check', example('join.transcript'))
        self.assertEqual(ran.status, 5)
        self.assertIn('this is a transcript: `gabzetu audit` judges it', ran.said)

    def test_what_only_tc_sees_is_shown_in_its_words(self):
        text = 'centre c 00124B0000000001 4 2\nrestore 0 {}\n'
        ran = run('check', '-', given=text)
        self.assertEqual(
            ran.output,
            "standard input:2:1: 'restore 0 {}': tc refuses this line: backup: the text after SKIP is no backup, "
            'as docs/BACKUP.md describes it\n',
        )

    def test_a_refused_play_shows_the_mistake_too(self):
        ran = run('play', self.write('bad', BASE + '\nkock d\n'))
        self.assertIn("bad:7:1: 'kock d': no event of this name; did you mean 'knock NAME'?", ran.said)

    def test_goes_on_after_a_file_that_cannot_be_read(self):
        ran = run('check', self.path('none'), self.folder, example('join.sched'))
        self.assertEqual((ran.status, ran.output.count(': a schedule, right')), (66, 1))
        self.assertIn('none: cannot be read', ran.said)

    def test_touches_no_store(self):
        run('check', example('admin.script'))
        self.assertEqual(os.listdir(self.folder), [])


class Digits(unittest.TestCase):
    @needs_tc
    def test_the_crc_is_that_of_tc(self):
        for text in ('0202020202023D75', '83FED3407A939723A5C639B26916D505C3B5'):
            self.assertIsNone(diagnosis.schedules.fault_of_code(text))
            self.assertEqual(program.run_tc(['install', text]).status, 0)


if __name__ == '__main__':
    unittest.main()
