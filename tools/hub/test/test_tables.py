"""Tests of tables: the fold of the change lines is the record that the proved program shows, and the difference of two
tables gives the lines that led from one to the other."""
import json
import unittest

from gabzetu.test.records import ATTRIBUTES, read_record
from hub import tables
from hub.programs import TOP, find
from hub.test import runs

OF_THE_CENTRE = ('live', 'removed', 'told', 'untold')
SAME = ('partner', 'key', 'floor')
EXAMPLES = ('join', 'removal', 'rollover', 'application-key', 'stops')


def example(name):
    with open(f'{TOP}/examples/{name}.sched', encoding='ascii') as file:
        return file.read()


def steps(schedule, name):
    """Yields the centre's tables before each of its events, and the change lines of the event."""
    transcript = runs.play(schedule)
    now = runs.first_backup(transcript, name)
    for lines in runs.groups_of(transcript).values():
        if runs.is_of(lines, name) and any(line == f'commit {name}' for line in lines):
            changes = lines[: lines.index(f'commit {name}')]
            yield now, changes
            now = tables.changed(now, changes)


@unittest.skipUnless(find('tc'), 'the program tc is missing')
class Tables(unittest.TestCase):
    def test_the_fold_is_the_record(self):
        for name in EXAMPLES:
            with self.subTest(name):
                transcript = runs.play(example(name) + '\ndump c\n')
                held = runs.first_backup(transcript, 'c')
                for line in transcript:
                    text = line.partition(' ')[2]
                    if runs.is_of([text], 'c') or text.split(' ')[0] in OF_THE_CENTRE:
                        tables.change(held, text)
                record = read_record(bytes.fromhex(transcript[-2].split(' ')[3]))
                self.assertEqual([row['key'] for row in held['nets']], [row['key'] for row in record['nets']])
                self.assertEqual([row['limit'] for row in held['nets']], [row['limit'] for row in record['nets']])
                self.assertEqual((held['aps'], held['active']), (record['aps_limit'], record['active']))
                for row, shown in zip(held['links'], record['links']):
                    self.assertEqual({name: row[name] for name in SAME}, {name: shown[name] for name in SAME})
                    self.assertEqual(ATTRIBUTES[row['attribute']], shown['attribute'])
                flags = [row['live'] + 2 * row['code'] + 4 * row['told'] for row in held['links']]
                self.assertEqual(flags, [row['flags'] for row in record['links']])

    def test_the_difference_is_what_happened(self):
        for name in EXAMPLES:
            for before, lines in steps(example(name), 'c'):
                with self.subTest(name, lines=lines):
                    after = tables.changed(before, lines)
                    self.assertEqual(tables.between(before, json.loads(json.dumps(after)), 'c'), lines)


if __name__ == '__main__':
    unittest.main()
