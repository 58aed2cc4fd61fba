"""Tests of tools/release, in a small repository of their own with a stand-in for tc."""
import hashlib
import hmac
import io
import os
import re
import shutil
import subprocess
import sys
import tarfile
import tempfile
import unittest
from unittest import mock

from gabzetu import TOP
from gabzetu.errors import Stop
from gabzetu.test.support import Folder
from releasing.gate import read_gate
from releasing.links import dead_links, pages_of
from releasing.program import MACHINES, machine_of, needs_of, runner_of, runs_here

GATE = 'zb_low ran\nrt: ok; handles allowed: none; every proof was done in this run\n12 passed, 0 failed\n'
LICENCE = 'MIT License\n\nCopyright (c) 2026 Somebody\n\nPermission is granted.\n\nAs it is.\n'
CRATES = '# programs\ntc_cli: zb_low io\nzb_low: serde_json\nzb_other: unused\n'
# A gate that builds stand-ins.
RUN = '''#!/bin/sh
for it in tc_cli tc_centre; do
    mkdir -p crates/$it/src crates/$it/specs crates/$it/out
    cp {program} crates/$it/out/$it
done
cat <<END
{said}END
'''
AUTHOR = ['-c', 'user.name=a', '-c', 'user.email=a@example.org']
TOOLS = ('git', 'dpkg-deb', 'zstd')
missing = [it for it in TOOLS if not shutil.which(it)]
# The stand-in is a small program of the system: nothing runs it.
STAND_IN = shutil.which('true')
INSTALLED = '''
./usr/bin/gabzetu
./usr/lib/gabzetu/tc
./usr/lib/gabzetu/tc_centre
./usr/lib/gabzetu/KIT
./usr/share/gabzetu/gabzetu
./usr/share/gabzetu/VERSION
./usr/share/gabzetu/COMMIT
./usr/share/gabzetu/tools/gabzetu/cli.py
./usr/share/gabzetu/tools/gabzetu/explorer/web/page.html
./usr/share/gabzetu/tools/hub-log
./usr/share/gabzetu/tools/hub/log.py
./usr/share/doc/gabzetu/README.md
./usr/share/doc/gabzetu/docs/FORMATS.md
./usr/share/doc/gabzetu/examples/join.sched
./usr/share/doc/gabzetu/LICENSE-MIT
./usr/share/doc/gabzetu/copyright
./usr/share/doc/gabzetu/gate.txt
./usr/share/doc/gabzetu/NOTICES
./usr/share/doc/gabzetu/SHA256SUMS
./usr/share/doc/gabzetu/changelog.gz
./usr/share/man/man1/gabzetu.1.gz
./usr/share/man/man1/gabzetu-watch.1.gz
./usr/share/bash-completion/completions/gabzetu
./usr/share/zsh/vendor-completions/_gabzetu
./usr/share/fish/vendor_completions.d/gabzetu.fish
'''.split()


def git(folder, *words):
    subprocess.run(['git', *AUTHOR, *words], cwd=folder, stdout=subprocess.DEVNULL, check=True)


def make_repository(folder):
    """Writes and commits what a release takes from a repository."""
    for name in ('gabzetu', 'VERSION', 'README.md', 'CHANGELOG.md', 'tools/release', 'tools/hub-log'):
        os.makedirs(os.path.dirname(os.path.join(folder, name)), exist_ok=True)
        shutil.copy(os.path.join(TOP, name), os.path.join(folder, name))
    for name in ('docs', 'examples', 'include', 'tools/gabzetu', 'tools/releasing', 'tools/hub'):
        shutil.copytree(
            os.path.join(TOP, name), os.path.join(folder, name), ignore=shutil.ignore_patterns('__pycache__')
        )
    for name in ('LICENSE', 'LICENSE-MIT', 'LICENSE-APACHE'):
        with open(os.path.join(folder, name), 'w', encoding='utf-8') as file:
            file.write(LICENCE)
    os.mkdir(os.path.join(folder, '.ci'))
    with open(os.path.join(folder, '.ci', 'run'), 'w', encoding='ascii') as file:
        file.write(RUN.format(program=STAND_IN, said=GATE))
        os.chmod(file.name, 0o755)
    rows = os.path.join(folder, 'tools', 'data', 'rows')
    os.makedirs(rows)
    for name, text in (('nothing.sched', ''), ('nothing.out', ''), ('../../../crates.txt', CRATES)):
        with open(os.path.join(rows, name), 'w', encoding='ascii') as file:
            file.write(text)
    git(folder, 'init', '-q')
    git(folder, 'add', '-A')
    git(folder, 'commit', '-q', '-m', 'all')


def sealed(top, text):
    """Returns a log with the seal of a clone, whose key is made if there is none."""
    path = os.path.join(top, 'out', 'gate', 'key')
    if not os.path.exists(path):
        os.makedirs(os.path.dirname(path))
        with open(path, 'wb') as file:
            file.write(os.urandom(32))
    with open(path, 'rb') as file:
        return f'{text}release: seal {hmac.new(file.read(), text.encode(), hashlib.sha256).hexdigest()}\n'


def gate_of(top, program):
    """Returns the log of a gate over what is committed in a repository, and over programs, without its seal."""
    commit = subprocess.run(['git', 'rev-parse', 'HEAD'], cwd=top, stdout=subprocess.PIPE, encoding='ascii', check=True)
    rows = [f'release: gate of commit {commit.stdout.strip()}']
    for name, path in (('tc', program), ('tc_centre', STAND_IN)):
        with open(path, 'rb') as file:
            rows.append(f'release: sha256 of {name}: {hashlib.sha256(file.read()).hexdigest()}')
    return '\n'.join([*rows, GATE])


def release(top, *words, program=STAND_IN, version=None, gate=None, how=None):
    """Runs tools/release of a repository. Returns its status and what it said. `how` has the words on the gate."""
    log = os.path.join(os.path.dirname(top), 'gate.log')
    with open(log, 'w', encoding='ascii') as file:
        file.write(sealed(top, gate_of(top, program)) if gate is None else gate)
    with open(os.path.join(top, 'VERSION'), encoding='ascii') as file:
        version = version or file.read().strip()
    kit = os.path.join(os.path.dirname(top), 'kit')
    words = ['--kit', 'kit 1', '--kit-folder', kit, '--program', program, '--centre', STAND_IN, '--no-root', *words]
    words = [version, *(how or ['--gate', log]), *words]
    ran = subprocess.run(
        [os.path.join(top, 'tools', 'release'), *words],
        stdout=subprocess.PIPE,
        stderr=subprocess.STDOUT,
        encoding='utf-8',
        check=False,
    )
    return ran.returncode, ran.stdout


def output_of(*words, encoding='utf-8'):
    return subprocess.run(words, stdout=subprocess.PIPE, encoding=encoding, check=True).stdout


def make_kit(folder):
    """Writes the licences of some libraries, as a kit has them."""
    files = {
        'rattle/serde_json/LICENSE-MIT': 'MIT of serde_json\n',
        'rattle/ryu/LICENSE': 'Apache of ryu\n',
        'rattle/unused/LICENSE': 'of nothing\n',
        'rlibs/serde_json.rlib/format': 'format 1\ndep ryu\n',
    }
    for name, text in files.items():
        path = os.path.join(folder, name)
        os.makedirs(os.path.dirname(path))
        with open(path, 'w', encoding='ascii') as file:
            file.write(text)


@unittest.skipIf(missing, f'{" ".join(missing)} is missing')
class Release(unittest.TestCase):
    @classmethod
    def setUpClass(cls):
        cls.holder = tempfile.TemporaryDirectory()
        cls.top, cls.out = (os.path.join(cls.holder.name, it) for it in ('top', 'out'))
        os.mkdir(cls.top)
        make_repository(cls.top)
        make_kit(os.path.join(cls.holder.name, 'kit'))
        cls.status, cls.said = release(cls.top, '-o', cls.out)

    @classmethod
    def tearDownClass(cls):
        cls.holder.cleanup()

    def made(self, ending):
        """Returns the path of the file that was made with this ending."""
        self.assertEqual(self.status, 0, self.said)
        return next(os.path.join(self.out, it) for it in os.listdir(self.out) if it.endswith(ending))

    def test_the_package_has_all_in_its_places(self):
        rows = [it.split(None, 5) for it in output_of('dpkg-deb', '-c', self.made('.deb')).splitlines()]
        names = {row[5].split(' -> ')[0] for row in rows}
        self.assertEqual([it for it in INSTALLED if it not in names], [])
        self.assertEqual([it for it in names if re.search('bin/tc$|/test/|/data/|__pycache__', it)], [])
        self.assertEqual({row[1] for row in rows}, {'root/root'})
        modes = {row[5]: row[0] for row in rows}
        self.assertEqual(modes['./usr/lib/gabzetu/tc'], '-rwxr-xr-x')
        self.assertEqual(modes['./usr/lib/gabzetu/KIT'], '-rw-r--r--')
        self.assertEqual(modes['./usr/share/gabzetu/tools/hub-log'], '-rwxr-xr-x')

    def test_the_package_says_what_it_needs(self):
        said = output_of('dpkg-deb', '-f', self.made('_amd64.deb'))
        self.assertRegex(said, r'Depends: python3 \(>= 3.8\), libc6 \(>= 2\.\d+\)\n')
        self.assertIn('Recommends: python3-scapy\n', said)

    def test_the_archive_runs_where_it_is_unpacked(self):
        room = os.path.join(self.holder.name, 'unpacked')
        os.mkdir(room)
        subprocess.run(['tar', '--zstd', '-xf', self.made('.tar.zst'), '-C', room], check=True)
        prefix = os.path.realpath(os.path.join(room, os.listdir(room)[0]))
        # the program of the archive, and not one that the caller names
        own = {name: value for name, value in os.environ.items() if name != 'GABZETU_TC'}
        words = [os.path.join(prefix, 'bin', 'gabzetu'), '--version']
        ran = subprocess.run(words, stdout=subprocess.PIPE, check=True, env=own)
        lines = ran.stdout.decode().splitlines()
        self.assertIn(f'tc: {prefix}/lib/gabzetu/tc', lines)
        self.assertIn('kit: kit 1', lines)
        with open(os.path.join(prefix, 'share/doc/gabzetu/gate.txt'), encoding='utf-8') as file:
            self.assertEqual(file.read(), GATE.split('\n', 1)[1])
        self.check_sums(prefix, 'share/doc/gabzetu/SHA256SUMS')

    def check_sums(self, folder, name):
        with open(os.path.join(folder, name), encoding='utf-8') as file:
            rows = [it.rstrip('\n').split('  ') for it in file]
        self.assertTrue(rows)
        for found, path in rows:
            with open(os.path.join(folder, path), 'rb') as file:
                self.assertEqual(hashlib.sha256(file.read()).hexdigest(), found, path)

    def test_comes_out_the_same_of_another_clone(self):
        """Also by a user whose new files only he may read, in another place and time zone."""
        self.check_sums(os.path.dirname(self.made('SHA256SUMS')), 'SHA256SUMS')
        again, clone = (os.path.join(self.holder.name, it) for it in ('again', 'clone'))
        mask = os.umask(0o077)
        try:
            subprocess.run(['git', 'clone', '-q', self.top, clone], check=True)
            with mock.patch.dict(os.environ, {'TZ': 'Asia/Tokyo', 'LC_ALL': 'C'}):
                status, said = release(clone, '-o', again)
        finally:
            os.umask(mask)
        self.assertEqual(status, 0, said)
        self.assertEqual(sorted(os.listdir(again)), sorted(os.listdir(self.out)))
        for name in os.listdir(self.out):
            with open(os.path.join(self.out, name), 'rb') as one, open(os.path.join(again, name), 'rb') as other:
                self.assertEqual(one.read(), other.read(), name)

    def test_refuses_what_is_not_committed(self):
        path = os.path.join(self.top, 'README.md')
        with open(path, encoding='utf-8') as file:
            before = file.read()
        with open(path, 'a', encoding='utf-8') as file:
            file.write('more\n')
        try:
            status, said = release(self.top)
        finally:
            with open(path, 'w', encoding='utf-8') as file:
                file.write(before)
        self.assertEqual(status, 65)
        self.assertIn('README.md was edited after the commit', said)

    def test_refuses_a_log_of_something_else(self):
        log = gate_of(self.top, STAND_IN)
        for text, why in (
            (GATE, 'this gate is of no commit'),
            (log.replace('gate of commit ', 'gate of commit 0'), 'this gate is of 0'),
            (log.replace('sha256 of tc: ', 'sha256 of tc: 0'), 'not of the program tc that is to be released'),
        ):
            status, said = release(self.top, gate=sealed(self.top, text))
            self.assertEqual(status, 65)
            self.assertIn(why, said)

    def test_refuses_a_log_that_no_gate_wrote(self):
        log = gate_of(self.top, STAND_IN)
        edited = sealed(self.top, log).replace('12 passed', '13 passed')
        for text in (log, edited, f'{log}release: seal {"0" * 64}\n', ''):
            status, said = release(self.top, gate=text)
            self.assertEqual(status, 65)
            self.assertIn('has no seal of this clone', said)

    def test_refuses_a_program_that_plays_differently(self):
        path = os.path.join(self.top, 'tools', 'data', 'rows', 'nothing.out')
        with open(path, 'w', encoding='ascii') as file:
            file.write('end 0 0 0 0 yes yes\n')
        git(self.top, 'commit', '-q', '-a', '-m', 'another row')
        try:
            status, said = release(self.top)
        finally:
            git(self.top, 'reset', '-q', '--hard', 'HEAD^')
        self.assertEqual(status, 65)
        self.assertIn('plays tools/data/rows/nothing.sched differently', said)

    @unittest.skipUnless(shutil.which('cc'), 'a C compiler is missing')
    def test_the_library_is_in_the_package(self):
        folder, out = (os.path.join(self.holder.name, it) for it in ('lib', 'with-library'))
        os.mkdir(folder)
        source = os.path.join(folder, 'x.c')
        with open(source, 'w', encoding='ascii') as file:
            file.write('int tc_x(void) { return 1; }\n')
        subprocess.run(['cc', '-shared', '-fPIC', source, '-o', os.path.join(folder, 'libtc_c.so')], check=True)
        gate = gate_of(self.top, STAND_IN)
        status, said = release(self.top, '-o', out, '--library', folder, gate=sealed(self.top, gate))
        self.assertEqual(status, 65)
        self.assertIn('not of the program libtc_c.so', said)
        with open(os.path.join(folder, 'libtc_c.so'), 'rb') as file:
            more = f'release: sha256 of libtc_c.so: {hashlib.sha256(file.read()).hexdigest()}\n'
        status, said = release(self.top, '-o', out, '--library', folder, gate=sealed(self.top, more + gate))
        self.assertEqual(status, 0, said)
        package = next(os.path.join(out, it) for it in os.listdir(out) if it.endswith('.deb'))
        listing = output_of('dpkg-deb', '-c', package)
        for name in ('./usr/lib/gabzetu/libtc_c.so', './usr/include/gabzetu/tc.h', './usr/include/gabzetu/tc_heap.c'):
            self.assertIn(f' {name}\n', listing)

    def test_the_package_has_notices_of_all_that_is_linked(self):
        listing = output_of('dpkg-deb', '--fsys-tarfile', self.made('.deb'), encoding=None)
        with tarfile.open(fileobj=io.BytesIO(listing)) as files:
            text = files.extractfile('./usr/share/doc/gabzetu/NOTICES').read().decode()
        self.assertIn('serde_json (LICENSE-MIT)\n', text)
        self.assertIn('ryu (LICENSE)\n', text)
        self.assertTrue(text.endswith('no file of a licence for these: io\n'))
        self.assertNotIn('unused', text)

    def test_no_link_of_a_page_leads_nowhere(self):
        with tempfile.TemporaryDirectory() as room:
            subprocess.run(['dpkg-deb', '-x', self.made('.deb'), room], check=True)
            pages = os.path.join(room, 'usr/share/doc/gabzetu')
            self.assertEqual(list(dead_links(pages)), [])
            self.assertGreater(len(pages_of(pages)), 15)

    def test_the_wheel_is_installed_without_a_network(self):
        room = os.path.join(self.holder.name, 'venv')
        made = subprocess.run([sys.executable, '-m', 'venv', room], capture_output=True, check=False)
        if made.returncode:
            self.skipTest('the module venv is missing')
        pip = [os.path.join(room, 'bin', 'python'), '-m', 'pip', '-q', 'install', '--no-index', self.made('.whl')]
        subprocess.run(pip, check=True)
        own = {**os.environ, 'GABZETU_TC': STAND_IN}
        words = [os.path.join(room, 'bin', 'gabzetu')]
        said = subprocess.run([*words, '--version'], stdout=subprocess.PIPE, check=True, env=own).stdout.decode()
        self.assertIn(f'tc: {STAND_IN}\n', said)
        self.assertIn('commit: ', said)
        for command in ('hub-log', 'explain', 'watch'):
            subprocess.run([*words, command, '--help'], stdout=subprocess.DEVNULL, check=True, env=own)

    @unittest.skipUnless(shutil.which('lintian'), 'lintian is missing')
    def test_lintian_finds_nothing(self):
        words = ['lintian', '--allow-root', self.made('.deb')]
        self.assertEqual(subprocess.run(words, capture_output=True, text=True, check=False).stdout, '')

    def test_runs_the_gate_and_takes_its_log_again(self):
        """The log is of the programs that the gate built, and of no others that are named."""
        out = os.path.join(self.holder.name, 'ran')
        status, said = release(self.top, '-o', out, how=['--run'])
        self.assertEqual(status, 0, said)
        self.assertIn('12 passed, 0 failed', said)
        gates = os.path.join(self.top, 'out', 'gate')
        log = next(os.path.join(gates, it) for it in os.listdir(gates) if it.endswith('.log'))
        self.assertEqual(release(self.top, '-o', out, how=['--gate', log])[0], 0)
        status, said = release(self.top, '-o', out, how=['--gate', log], program=shutil.which('false'))
        self.assertEqual(status, 65)
        self.assertIn('not of the program tc', said)

    @unittest.skipUnless(shutil.which('ssh-keygen'), 'ssh-keygen is missing')
    def test_signs_the_sums(self):
        key, out = os.path.join(self.holder.name, 'key'), os.path.join(self.holder.name, 'signed')
        subprocess.run(['ssh-keygen', '-q', '-t', 'ed25519', '-N', '', '-f', key], check=True)
        self.assertEqual(release(self.top, '-o', out, '--sign', key)[0], 0)
        with open(f'{key}.pub', encoding='ascii') as file, open(f'{key}.allowed', 'w', encoding='ascii') as allowed:
            allowed.write(f'gabzetu {file.read()}')
        words = ['ssh-keygen', '-Y', 'verify', '-f', f'{key}.allowed', '-I', 'gabzetu', '-n', 'file']
        with open(os.path.join(out, 'SHA256SUMS'), 'rb') as sums:
            words += ['-s', os.path.join(out, 'SHA256SUMS.sig')]
            ran = subprocess.run(words, stdin=sums, stdout=subprocess.DEVNULL, check=False)
        self.assertEqual(ran.returncode, 0)

    def test_refuses_another_version(self):
        status, said = release(self.top, version='77.0')
        self.assertEqual(status, 65)
        self.assertIn("VERSION says '", said)

    def test_refuses_what_is_no_program(self):
        status, said = release(self.top, program=os.path.join(self.top, 'gabzetu'))
        self.assertEqual(status, 65)
        self.assertIn('this is no program for Linux on x86-64 or aarch64', said)


class Gate(Folder):
    def read(self, text):
        return read_gate('gate.log', text.splitlines())

    def refuse(self, text, why):
        with self.assertRaisesRegex(Stop, why):
            self.read(text)

    def test_takes_the_last_lines(self):
        after = 'tools/test: one: ok\ntools/test: two: skipped, x is missing\n'
        self.assertEqual(self.read(GATE), GATE.splitlines()[1:])
        self.assertEqual(self.read(GATE + after), (GATE + after).splitlines()[1:])

    def test_refuses_what_is_not_passed(self):
        self.refuse('', 'did not come to its end')
        self.refuse(GATE.replace('0 failed', '1 failed'), 'this gate is not passed')
        self.refuse(
            GATE.replace('0 failed', '0 failed (zb_low and the crates below alone: not the gate)'), 'not passed'
        )
        self.refuse(GATE.replace('rt: ok', 'rt: FAILED'), 'as `rt ci` writes it')
        self.refuse(GATE + '4 passed, 2 failed\n', 'not passed')
        self.refuse(GATE + 'tools/test: one: failed\ntools/test: two: ok\n', 'tools/test: one: failed')
        self.refuse(GATE + 'zb_low has 4 wrong edits, 3 at most\n', 'a step after `rt ci` failed')


class Machines(unittest.TestCase):
    def test_names_and_runners(self):
        def elf(machine):
            return b'\x7fELF\x02\x01' + bytes(12) + machine

        self.assertEqual(machine_of({'tc': elf(b'\x3e\0')}).debian, 'amd64')
        self.assertEqual(machine_of({'tc': elf(b'\xb7\0'), 'tc_centre': elf(b'\xb7\0')}).name, 'aarch64')
        with self.assertRaisesRegex(Stop, 'for aarch64 and x86-64: a release is for one'):
            machine_of({'tc': elf(b'\x3e\0'), 'tc_centre': elf(b'\xb7\0')})
        with mock.patch('platform.machine', return_value='aarch64'), mock.patch('shutil.which', return_value=None):
            self.assertEqual(runner_of(MACHINES[b'\xb7\0']), [])
            self.assertRaisesRegex(Stop, 'qemu-x86_64-static is missing', runner_of, MACHINES[b'\x3e\0'])
            self.assertTrue(runs_here('x_arm64.deb'))
            self.assertFalse(runs_here('x_amd64.deb'))


class Needs(unittest.TestCase):
    def test_of_the_libraries_named_in_a_program(self):
        self.assertEqual(needs_of(b'\0GLIBC_2.9\0GLIBC_2.34\0libgcc_s.so.1\0'), ['libc6 (>= 2.34)', 'libgcc-s1'])
        self.assertEqual(needs_of(b'nothing'), [])


if __name__ == '__main__':
    unittest.main()
