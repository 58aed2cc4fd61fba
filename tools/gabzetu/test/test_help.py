"""Tests of help, versions, completions and the man page."""
import os
import shutil
import subprocess
import unittest

from gabzetu import TOP, cli, helping, read_version
from gabzetu.formats import causes, fields, schedules
from gabzetu.test.support import Folder, example, needs_tc, run

MAN = os.path.join(TOP, 'docs', 'gabzetu.1')


def needs(name):
    return unittest.skipUnless(shutil.which(name), f'{name} is missing')


def written(*words):
    """Returns what a shell writes."""
    return subprocess.run(
        words, stdout=subprocess.PIPE, stderr=subprocess.STDOUT, encoding='utf-8', check=False
    ).stdout


class Help(unittest.TestCase):
    def test_lists_the_commands(self):
        ran = run('help')
        self.assertEqual(ran.status, 0)
        for name in cli.command_names():
            self.assertIn(f'  {name.replace("_", "-")} ', ran.output.replace('\n', ' \n'))

    def test_every_command_describes_itself(self):
        for name in cli.command_names():
            ran = run(name.replace('_', '-'), '--help')
            self.assertEqual((ran.status, ran.said), (0, ''))
            if name not in ('scenario',):
                self.assertEqual(ran.output, run('help', name.replace('_', '-')).output)

    def test_describes_the_lines_of_texts(self):
        said = run('help', 'schedule').output
        for form in schedules.DECLARATIONS + schedules.EVENTS:
            self.assertIn(f'\n  {form.text}\n', said)
        self.assertIn('\n  frame HEX\n', run('help', 'capture').output)
        self.assertIn('\n  restore SKIP BACKUP\n', run('help', 'script').output)
        self.assertIn('\n  rollover but NAME ..\n', run('help', 'scenario').output)

    def test_describes_each_line_of_a_transcript(self):
        self.assertEqual({*fields.MEANINGS}, {*fields.TRANSCRIPT, 'end'})
        said = run('help', 'transcript').output
        for kind in fields.MEANINGS:
            self.assertRegex(said, f'\n  (EVENT )?{kind} ')
        self.assertIn('\n  EVENT given NODE net KEY SEQ\n  EVENT given NODE link PARTNER KEY\n', said)

    def test_describes_causes(self):
        said = run('help', 'causes').output
        for kind in helping.TITLES:
            for cause in causes.CAUSES[kind]:
                self.assertIn(f'\n  {cause}\n', said)

    def test_wrong_words(self):
        ran = run('help', 'plya')
        self.assertEqual((ran.status, ran.said), (64, "gabzetu: no command or topic 'plya'; did you mean 'play'?\n"))
        ran = run('plya', 'x')
        self.assertEqual(ran.status, 64)
        self.assertIn("there is no command 'plya'; did you mean 'play'?", ran.said)
        self.assertEqual(run('play', '--js', 'x').status, 64)
        self.assertEqual(run().status, 64)

    def test_options_may_be_anywhere(self):
        path = example('join.transcript')
        wanted = run('explain', path, '6', '--schedule', example('join.sched'))
        self.assertEqual(wanted.status, 0)
        for words in (
            ['explain', path, '--schedule', example('join.sched'), '6'],
            ['explain', '--schedule', example('join.sched'), path, '6'],
            ['explain', f'--schedule={example("join.sched")}', '--', path, '6'],
        ):
            self.assertEqual(run(*words), wanted, words)
        self.assertIn('--schedule: expected one argument', run('explain', path, '6', '--schedule').said)

    def test_without_the_program(self):
        self.assertEqual(run('help', tc='/none').status, 0)
        self.assertIn('tc: missing', run('--version', tc='/none').output)


@needs_tc
class Versions(Folder):
    def test_says_what_runs(self):
        lines = run('--version').output.splitlines()
        self.assertEqual(lines[0], f'gabzetu {read_version()}')
        self.assertTrue(any(it.startswith('tc sha256: ') for it in lines))

    def test_follows_links(self):
        os.symlink(os.path.join(TOP, 'gabzetu'), self.path('gz'))
        ran = subprocess.run(
            [self.path('gz'), 'audit', example('join.transcript')], stdout=subprocess.PIPE, check=False
        )
        self.assertEqual(ran.stdout, b'sound 19 13 locked\n')


class ManPage(unittest.TestCase):
    def test_the_file_is_the_one_that_is_made(self):
        with open(MAN, encoding='utf-8') as file:
            self.assertEqual(file.read(), run('man').output, 'write it anew: ./gabzetu man -o docs/gabzetu.1')

    @needs('groff')
    def test_groff_reads_it_without_a_warning(self):
        said = subprocess.run(
            ['groff', '-man', '-ww', '-Tascii', MAN], stdout=subprocess.DEVNULL, stderr=subprocess.PIPE, check=False
        )
        self.assertEqual(said.stderr, b'')


class ManPages(Folder):
    def test_each_command_has_one(self):
        ran = run('man', '--folder', self.folder)
        self.assertEqual((ran.status, ran.output, ran.said), (0, '', ''))
        wanted = ['gabzetu.1', *(f'gabzetu-{it.replace("_", "-")}.1' for it in cli.command_names())]
        self.assertEqual(sorted(os.listdir(self.folder)), sorted(wanted))
        with open(self.path('gabzetu-campaigns.1'), encoding='utf-8') as file:
            page = file.read()
        self.assertIn('.SH OPTIONS', page)
        self.assertRegex(page, r'\.nf\n  gabzetu campaigns runs COUNT START RESULTS .*\n')


class Completions(Folder):
    def completions(self, shell):
        return self.write(f'completions.{shell}', run('completions', shell).output)

    def complete_by_bash(self, *words):
        script = (
            f'source {self.completions("bash")}; COMP_WORDS=("$@"); COMP_CWORD=$(($# - 1)); _gabzetu; echo '
            f'"${{COMPREPLY[@]}}"'
        )
        return written('bash', '-c', script, 'bash', 'gabzetu', *words).split()

    @needs('bash')
    def test_bash(self):
        self.assertEqual(self.complete_by_bash('pl'), ['play'])
        self.assertEqual(self.complete_by_bash('check', '--kind', 's'), ['schedule', 'script'])
        self.assertEqual(self.complete_by_bash('play', '--'), ['--help', '--output', '--json', '--debug'])
        self.assertEqual(self.complete_by_bash('completions', 'z'), ['zsh'])
        self.assertEqual(self.complete_by_bash('help', 'sched'), ['schedule'])
        self.assertEqual(self.complete_by_bash('play', example('join.s')), [example('join.sched')])

    @needs('fish')
    def test_fish(self):
        script = f'source {self.completions("fish")}; complete -C "gabzetu pl"; complete -C "gabzetu check --kind s"'
        self.assertEqual(
            [it.split('\t')[0] for it in written('fish', '--no-config', '-c', script).splitlines()],
            ['play', 'schedule', 'script'],
        )

    @needs('zsh')
    def test_zsh(self):
        self.assertEqual(written('zsh', '-n', self.completions('zsh')), '')

    def test_no_such_shell(self):
        self.assertEqual(run('completions', 'csh').status, 64)


if __name__ == '__main__':
    unittest.main()
