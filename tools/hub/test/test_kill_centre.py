"""Tests of kill-centre: it finds nothing if nothing is wrong, and finds a store that goes back in time."""
import importlib.machinery
import importlib.util
import os
import subprocess
import tempfile
import types
import unittest

from hub import killing
from hub.programs import TOP, find

# A centre whose store goes back, at each start, to what it was at the start before.
GOES_BACK = '''#!/bin/sh
[ ! -e "$1.before" ] || cp "$1.before" "$1"
[ ! -e "$1.now" ] || mv "$1.now" "$1.before"
cp "$1" "$1.now"
exec {centre} "$1"
'''


def kill_centre():
    """Returns the tool as a module."""
    loader = importlib.machinery.SourceFileLoader('kill_centre', f'{TOP}/tools/kill-centre')
    module = importlib.util.module_from_spec(importlib.util.spec_from_loader('kill_centre', loader))
    loader.exec_module(module)
    return module


@unittest.skipUnless(find('tc') and find('tc_centre'), 'a built program is missing')
class KillCentre(unittest.TestCase):
    def tried(self, *words, centre=None):
        """Returns the status and the output of kill-centre."""
        env = {**os.environ, **({'GABZETU_TC_CENTRE': centre} if centre else {})}
        how = {'stdout': subprocess.PIPE, 'stderr': subprocess.STDOUT, 'env': env, 'check': False}
        ran = subprocess.run([f'{TOP}/tools/kill-centre', *words], **how)
        return ran.returncode, ran.stdout.decode()

    def test_nothing_is_wrong(self):
        status, said = self.tried('30', '5')
        self.assertEqual(status, 0, said)
        self.assertIn('nothing lost, no counter twice, each log sound', said)
        self.assertRegex(said, '30 kills at a system call, .* within an event; 30 kills at random, .* within an event')

    def test_a_store_that_goes_back_is_found(self):
        with tempfile.TemporaryDirectory() as folder:
            path = os.path.join(folder, 'centre')
            with open(path, 'w', encoding='ascii') as file:
                file.write(GOES_BACK.format(centre=find('tc_centre')))
            os.chmod(path, 0o755)
            status, said = self.tried('30', '5', centre=path)
        self.assertEqual(status, 1, said)
        self.assertRegex(said, 'was lost|comes twice|without an answer')

    def test_says_what_is_missing(self):
        status, said = self.tried(centre='/nonexistent')
        self.assertEqual(status, 70)
        self.assertIn('run ./build tc_centre', said)


class Kills(unittest.TestCase):
    def test_a_process_is_killed_at_each_of_its_calls(self):
        if not killing.can_trace():
            self.skipTest('ptrace is missing')
        whole, sizes = killing.traced(['/bin/cat'], b'some bytes\n')
        self.assertEqual((whole.lines, whole.is_killed), (['some bytes'], False))
        for number, size in list(enumerate(sizes))[::9]:
            killed, seen = killing.traced(['/bin/cat'], b'some bytes\n', number)
            self.assertTrue(killed.is_killed)
            self.assertEqual((len(seen), len(killed.lines)), (number, 1 if size else 0))

    def test_too_few_kills_within_events(self):
        for within, are_enough in ((20, True), (19, False), (0, False)):
            bench = types.SimpleNamespace(kills={'at random': [100, within]})
            said, found = kill_centre().shares(bench)
            self.assertEqual(said, f'100 kills at random, {within} of them ({within} %) within an event')
            self.assertEqual(found, are_enough)


if __name__ == '__main__':
    unittest.main()
