"""Tests of inputs, outputs and progress."""
import io
import os
import stat
import subprocess
import sys
import time
import unittest
from unittest import mock

from gabzetu import TOP, output, progress
from gabzetu.errors import Stop
from gabzetu.test.support import Folder, example, needs_tc

LONGEST = 60  # seconds, for a machine that is busy with other work


class Output(Folder):
    def test_keeps_the_mode_of_the_file_that_it_replaces(self):
        path = self.write('out', 'before')
        os.chmod(path, 0o640)
        output.write_output(path, 'after')
        self.assertEqual(stat.S_IMODE(os.stat(path).st_mode), 0o640)

    def test_follows_a_link(self):
        self.write('real', 'before')
        os.symlink(self.path('real'), self.path('link'))
        output.write_output(self.path('link'), 'after')
        self.assertTrue(os.path.islink(self.path('link')))
        self.assertEqual(output.read_input(self.path('real')), b'after')

    def test_writes_what_is_no_regular_file_in_place(self):
        output.write_output(os.devnull, 'after')
        self.assertFalse(os.path.isfile(os.devnull))

    def test_leaves_the_file_where_the_body_fails(self):
        path = self.write('out', 'before')
        with self.assertRaises(ZeroDivisionError):
            with output.open_output(path) as file:
                file.write(b'half')
                file.write(1 // 0)
        self.assertEqual(output.read_input(path), b'before')
        self.assertEqual(os.listdir(self.folder), ['out'])

    def test_says_what_cannot_be_read(self):
        with self.assertRaises(Stop) as stopped:
            output.read_input(self.folder)
        self.assertEqual(stopped.exception.status, 66)
        self.assertIn('is a directory', stopped.exception.message)


class Streams(Folder):
    """Standard streams that are closed or take no more, and names that no terminal should get as they are."""

    def gabzetu(self, words, shell='', environment=None):
        """Returns how gabzetu ends on some words, with what a shell does to its streams, and what it says."""
        command = f'exec "$0" "$@" {shell}'
        front = [sys.executable, os.path.join(TOP, 'gabzetu')]
        ran = subprocess.run(
            ['sh', '-c', command, *front, *words],
            stdin=subprocess.DEVNULL,
            capture_output=True,
            env={**os.environ, **(environment or {})},
            timeout=LONGEST,
            check=False,
        )
        return ran.returncode, ran.stdout.decode(), ran.stderr.decode()

    def test_an_output_that_takes_no_more_is_a_fault(self):
        for words in (['--help'], ['--version'], ['man'], ['help', 'schedule'], ['play', '--help']):
            for shell, why in (('>/dev/full', 'no space left on device'), ('>&-', 'bad file descriptor')):
                with self.subTest(words=words, shell=shell):
                    status, _, said = self.gabzetu(words, shell)
                    self.assertEqual((status, said), (74, f'gabzetu: standard output: cannot be written: {why}\n'))

    def test_a_closed_input_or_standard_error(self):
        status, _, said = self.gabzetu(['from-zigpy', '-'], '<&-')
        self.assertEqual(
            (status, said), (66, 'gabzetu: standard input: cannot be read: bad file descriptor\n')
        )
        self.assertEqual(self.gabzetu(['play', self.folder], '2>&-'), (66, '', ''))
        self.assertEqual(self.gabzetu(['man', '-o', self.path('page')], '>&- <&- 2>&-')[0], 0)
        self.assertGreater(os.path.getsize(self.path('page')), 1000)

    def test_names_are_shown_with_escapes(self):
        name = b'a\xff \x1b[31m\n\xc3\xb6'
        status, _, said = self.gabzetu(['play', os.fsdecode(name)])
        self.assertEqual(status, 66)
        self.assertEqual(
            said, 'gabzetu: a\\udcff \\x1b[31m\n\u00f6: cannot be read: no such file or directory\n'
        )

    def test_a_terminal_may_lack_letters(self):
        with open(os.path.join(os.fsencode(self.folder), b'\xc3\xb6\xff.scn'), 'wb') as file:
            file.write(b'kock\n')
        ascii_only = {'PYTHONIOENCODING': 'ascii', 'LC_ALL': 'C'}
        status, _, said = self.gabzetu(['scenario', self.path(os.fsdecode(b'\xc3\xb6\xff.scn'))], '', ascii_only)
        self.assertEqual(status, 65)
        self.assertIn("\\xf6\\udcff.scn:1:1: 'kock'", said)

    @needs_tc
    def test_what_is_right_is_said_with_escapes_too(self):
        path = os.path.join(os.fsencode(self.folder), b'\n\xff')
        with open(path, 'wb') as file, open(example('join.sched'), 'rb') as given:
            file.write(given.read())
        status, output_text, _ = self.gabzetu(['check', os.fsdecode(path)])
        self.assertEqual((status, output_text), (0, f'{self.folder}/\\n\\udcff: a schedule, right\n'))


class Progress(unittest.TestCase):
    def shown(self, is_watched):
        """Returns what is shown of some work, which goes on until something is shown where that is expected."""
        said, last = io.StringIO(), time.monotonic() + (LONGEST if is_watched else 0.2)
        with mock.patch.object(sys, 'stderr', said), mock.patch.object(progress, 'FIRST_AFTER', 0.01):
            with mock.patch.object(progress, 'is_watched', lambda: is_watched), progress.shown('work'):
                while not said.getvalue() and time.monotonic() < last:
                    time.sleep(0.01)
        return said.getvalue()

    def test_is_shown_on_a_terminal_and_taken_away(self):
        said = self.shown(True)
        self.assertIn('gabzetu: work: 0 s ..', said)
        self.assertTrue(said.endswith(progress.CLEAR))

    def test_is_not_shown_elsewhere(self):
        self.assertEqual(self.shown(False), '')


if __name__ == '__main__':
    unittest.main()
