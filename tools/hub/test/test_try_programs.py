"""Tests of try-programs: it finds nothing in the programs, and finds what wrapper programs spoil."""
import importlib.machinery
import importlib.util
import os
import subprocess
import tempfile
import unittest

from hub import session
from hub.programs import TOP, find

# A program around tc or tc_centre that spoils what they do, and the test that finds it.
WRONG = (
    ('centre', 'cd "$(dirname "$1")" && exec {program} store', 'paths'),
    ('centre', '{program} "$1" >"$1.out"; status=$?; cat "$1.out"; exit $status', 'answers'),
    ('centre', 'sed s/backup/list/ | exec {program} "$1"', 'answers'),
    ('centre', '{program} "$1"; status=$?; [ $status != 7 ] || exit 13; exit $status', 'ends'),
    ('centre', 'cp "$1" "$1.mine"; exec {program} "$1.mine"', 'ends'),
    ('centre', '{program} "$1"; exit 0', 'full'),
    ('tc', '{program} "$@"; status=$?; [ ! -f "$2" ] || chmod 644 "$2"; exit $status', 'paths'),
    ('tc', '{program} "$@" | cat', 'full'),
)


def load():
    """Returns the tool as a module."""
    loader = importlib.machinery.SourceFileLoader('try_programs', f'{TOP}/tools/try-programs')
    module = importlib.util.module_from_spec(importlib.util.spec_from_loader('try_programs', loader))
    loader.exec_module(module)
    return module


@unittest.skipUnless(find('tc') and find('tc_centre'), 'a built program is missing')
class TryPrograms(unittest.TestCase):
    def setUp(self):
        self.tool, self.seconds, session.SECONDS = load(), session.SECONDS, 15
        self.room = tempfile.TemporaryDirectory()

    def tearDown(self):
        session.SECONDS = self.seconds
        self.room.cleanup()

    def tried(self, name, **others):
        """Runs a test with other programs instead of the two. Returns what it found, or None."""
        paths = {'tc': find('tc'), 'centre': find('tc_centre'), **others}
        with tempfile.TemporaryDirectory(dir=self.room.name) as room:
            programs = self.tool.Programs(paths['tc'], paths['centre'], room)
            try:
                getattr(self.tool, name)(programs)
            except self.tool.ERRORS as error:
                return str(error)
        return None

    def test_what_is_right(self):
        for name in ('paths', 'answers', 'full', 'ends'):
            with self.subTest(name):
                self.assertIsNone(self.tried(name))

    def test_what_is_wrong(self):
        for number, (which, script, name) in enumerate(WRONG):
            with self.subTest(script):
                path = os.path.join(self.room.name, f'wrong{number}')
                with open(path, 'w', encoding='ascii') as file:
                    program = find('tc' if which == 'tc' else 'tc_centre')
                    file.write('#!/bin/sh\n' + script.format(program=program) + '\n')
                os.chmod(path, 0o755)
                self.assertIsNotNone(self.tried(name, **{which: path}))


class Missing(unittest.TestCase):
    def test_says_what_is_missing(self):
        how = {'stdout': subprocess.PIPE, 'stderr': subprocess.STDOUT, 'check': False}
        ran = subprocess.run([f'{TOP}/tools/try-programs', '--program', '/nonexistent'], **how)
        self.assertEqual(ran.returncode, 70)
        self.assertIn(b'run ./build tc_cli', ran.stdout)


if __name__ == '__main__':
    unittest.main()
