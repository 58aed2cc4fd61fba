"""Tests of hub-log as a command, and of the hints of others that get a log; of what play says of long transcripts."""
import os
import subprocess
from unittest import mock

from gabzetu import TOP
from gabzetu.commands import play
from gabzetu.explorer.runs import explain_verdict
from gabzetu.program import Completed
from gabzetu.test.support import Folder, example, needs_tc, run

SCRIPT = 'centre c 00124B0000000001 8 4\ninit 000102030405060708090A0B0C0D0E0F\nbackup\n'


@needs_tc
class HubLog(Folder):
    def log(self):
        """Returns the path of the log of a session in which nothing happens but that it is asked for its backup."""
        said = run('admin', self.path('store'), self.write('a.script', SCRIPT)).output.splitlines()
        backup = next(it for it in said if it.startswith('{'))
        lines = ['start', '> centre c 00124B0000000001 8 4', '< ok 1', '> open', '< ok 2', '> backup', f'< {backup}']
        return self.write('hub.log', '\n'.join([*lines, '< ok 3', '']))

    def test_writes_what_the_tool_writes(self):
        log = self.log()
        ran = run('hub-log', log, '-o', self.path('out'))
        self.assertEqual((ran.status, ran.output), (0, ''), ran.said)
        other = subprocess.run([os.path.join(TOP, 'tools', 'hub-log'), log], capture_output=True, text=True, check=True)
        with open(self.path('out'), encoding='ascii') as file:
            self.assertEqual(file.read(), other.stdout)
        self.assertEqual(os.stat(self.path('out')).st_mode & 0o777, 0o600)
        self.assertEqual(run('audit', self.path('out')).status, 0)

    def test_others_say_what_a_log_is(self):
        log = self.log()
        for words in (('audit', log), ('explore', log, self.path('page.html')), ('explain', log, '1')):
            ran = run(*words)
            self.assertNotEqual(ran.status, 0)
            self.assertIn('this is a log of tc_centre: `gabzetu hub-log` makes its transcript', ran.said)

    def test_says_what_is_no_log(self):
        short = 'start\n> centre\n< ok 1\n> open\n< ok 2\n'
        for text in ('boom\n', 'start\nboom\n', 'start\n< hello\n', short, 'ü\n', ''):
            ran = run('hub-log', self.write('bad.log', text))
            self.assertEqual((ran.status, ran.output), (65, ''), text)
            self.assertIn('bad.log', ran.said)


@needs_tc
class LongTranscripts(Folder):
    def test_play_says_that_audit_cannot_read_it(self):
        with mock.patch.object(play, 'MOST_OF_TC', 1000):
            ran = run('play', example('join.sched'))
        self.assertEqual(ran.status, 0)
        self.assertIn('and `gabzetu audit` reads no more than 1,000', ran.said)

    def test_a_page_says_that_it_was_not_audited(self):
        verdict = explain_verdict(Completed(9, b'too long 16777216\n'))
        self.assertIsNone(verdict[1])
        self.assertIn('not audited: the transcript is longer', verdict[2])
