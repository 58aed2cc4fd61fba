"""Tries a release in a clean Debian root, which debootstrap makes: installs it, plays, explores, opens, removes it."""
import contextlib
import glob
import os
import re
import shutil
import subprocess
from typing import Any, Dict, Iterator, List, Optional, Tuple

from gabzetu import TOP
from gabzetu.errors import MISSING, WRONG_INPUT, Stop
from gabzetu.output import say

KEPT = os.path.join(TOP, 'out', 'clean-root')
DEBIAN = ('http://deb.debian.org/debian', 'bookworm')
ENVIRONMENT = {
    'PATH': '/usr/sbin:/usr/bin:/sbin:/bin',
    'HOME': '/root',
    'LC_ALL': 'C.UTF-8',
    'DEBIAN_FRONTEND': 'noninteractive',
}
ARCHIVES = 'var/cache/apt/archives'
EXAMPLES = '/usr/share/doc/gabzetu/examples'
HUB = ('/usr/lib/gabzetu/tc_centre', '/usr/lib/gabzetu/tc')
WALK = os.path.join(TOP, 'tools', 'walk')
# What the tutorial names, and the library that reads captures.
OTHER_PROGRAMS = ('python3-scapy', 'mscgen', 'tshark', 'parallel')
INSTALL = ('apt-get', 'install', '-y', '-q', '--no-install-recommends', '-o', 'APT::Keep-Downloaded-Packages=true')


def called(words: List[str], **how: Any) -> Tuple[int, str]:
    """Runs a command, and returns its status and what it wrote."""
    pipes: Dict[str, Any] = {'stdin': subprocess.DEVNULL, 'stdout': subprocess.PIPE, 'stderr': subprocess.STDOUT}
    ran = subprocess.run(words, check=False, **pipes, **how)
    return ran.returncode, ran.stdout.decode('utf-8', 'replace')


def last_lines(text: str, count: int = 12) -> str:
    """Returns the last lines of what a command wrote."""
    return '\n'.join(text.rstrip().splitlines()[-count:])


# ---- the root that is kept


def read_mirror(given: Optional[str]) -> Tuple[str, str]:
    """Returns the mirror and the suite: the given mirror, else the one that apt uses here for this system's suite."""
    code = re.search(r'^VERSION_CODENAME=(\w+)', read_text('/etc/os-release'), re.M)
    suite = code.group(1) if code else DEBIAN[1]
    if given:
        return given, suite
    if shutil.which('apt-get'):
        form = ['--format', '$(REPO_URI) $(RELEASE) $(COMPONENT)', 'Created-By: Packages']
        rows = [it.split() for it in called(['apt-get', 'indextargets', *form])[1].splitlines()]
        found = [it[0] for it in rows if it[1:] == [suite, 'main']]
        if found:
            return found[0], suite
    return DEBIAN


def read_text(path: str) -> str:
    """Returns the text of a file, or none of it where it can't be read."""
    with contextlib.suppress(OSError), open(path, encoding='utf-8') as file:
        return file.read()
    return ''


def proxies() -> Dict[str, str]:
    """Returns the variables that make other programs use the proxy that apt uses."""
    if not shutil.which('apt-config'):
        return {}
    said = called(['apt-config', 'dump', 'Acquire::http::Proxy'])[1]
    found = re.search(r'^Acquire::http::Proxy "(.+)";', said, re.M)
    return {'http_proxy': found.group(1)} if found else {}


def unmount_below(folder: str) -> None:
    """Unmounts what is mounted in a folder, so that removing it touches nothing else."""
    mounts = [it.split()[1] for it in read_text('/proc/mounts').splitlines()]
    for place in sorted((it for it in mounts if it.startswith(folder + '/')), reverse=True):
        subprocess.run(['umount', place], check=True)


def remove(folder: str) -> None:
    """Removes a root."""
    unmount_below(folder)
    if os.path.exists(folder):
        shutil.rmtree(folder)


def make_base(mirror: Optional[str]) -> str:
    """Returns the path of the clean root, which is made where none is kept."""
    base, part = os.path.join(KEPT, 'base'), os.path.join(KEPT, 'base.part')
    if os.path.isdir(base):
        return base
    if not shutil.which('debootstrap'):
        raise Stop('debootstrap is missing: apt-get install debootstrap, or give --no-root', MISSING)
    url, suite = read_mirror(mirror)
    say(f'release: making a clean root of {suite} from {url} in {os.path.relpath(base)}, which takes some minutes')
    remove(part)
    os.makedirs(KEPT, exist_ok=True)
    words = ['nice', 'debootstrap', '--variant=minbase', suite, part, url]
    status, said = called(words, env={**os.environ, **proxies()})
    if status:
        raise Stop(f'debootstrap failed. Give --mirror URL or --no-root. It said:\n{last_lines(said)}', MISSING)
    Root(part).run('apt-get', 'update', '-q')
    os.rename(part, base)
    return base


def mount_systems(path: str) -> None:
    """Mounts in a root what programs ask about processors and networks, as a Debian system has it."""
    for kind, name in (('proc', 'proc'), ('sysfs', 'sys')):
        status, said = called(['mount', '-t', kind, kind, os.path.join(path, name)])
        if status:
            raise Stop(f'/{name} cannot be mounted in the clean root, give --no-root: {last_lines(said, 1)}', MISSING)


@contextlib.contextmanager
def trial_root(base: str) -> Iterator['Root']:
    """Yields a copy of the clean root, which is removed at the end. What apt fetched for it is kept."""
    path = os.path.join(KEPT, 'trial')
    remove(path)
    try:
        subprocess.run(['cp', '-a', '--reflink=auto', base, path], check=True)
        mount_systems(path)
        yield Root(path)
    finally:
        for package in glob.glob(os.path.join(path, ARCHIVES, '*.deb')):
            shutil.copy(package, os.path.join(base, ARCHIVES))
        remove(path)


class Root:
    """A Debian system in a folder."""

    def __init__(self, path: str) -> None:
        self.path = path

    def at(self, name: str) -> str:
        """Returns the path, from outside, of a name in the root."""
        return os.path.join(self.path, name.lstrip('/'))

    def call(self, *words: str) -> Tuple[int, str]:
        """Runs a command in the root, and returns its status and what it wrote."""
        return called(['nice', 'chroot', self.path, *words], env={**ENVIRONMENT, **proxies()})

    def run(self, *words: str, status: int = 0) -> str:
        """Runs a command in the root, and returns what it wrote. Stops where it ends with another status."""
        found, said = self.call(*words)
        if found != status:
            raise Stop(
                f'in the clean root `{" ".join(words)}` ended with status {found}, not {status}. '
                f'Where packages could not be fetched, remove {os.path.relpath(KEPT)} and try again. '
                f'It said:\n{last_lines(said)}',
                WRONG_INPUT,
            )
        return said


# ---- the trial


def want(holds: object, what: str) -> str:
    """Stops where something isn't as it should be."""
    if not holds:
        raise Stop(f'in the clean root {what}', WRONG_INPUT)
    return what


def play_and_compare(root: Root, front: str, examples: str) -> None:
    """Plays the example of a join, and compares its transcript with the one beside it."""
    root.run(front, 'play', f'{examples}/join.sched', '-o', '/root/join.transcript')
    wanted = read_text(root.at(f'{examples}/join.transcript'))
    want(read_text(root.at('/root/join.transcript')) == wanted, 'join.transcript comes out differently')
    root.run(front, 'audit', '/root/join.transcript')


def try_install(root: Root, package: str) -> None:
    """Installs the package with what it depends on, and compares its files with their check sums."""
    shutil.copy(package, root.at('/root'))
    root.run(*INSTALL, f'/root/{os.path.basename(package)}')
    want(root.run('dpkg', '--verify', 'gabzetu') == '', 'installed files differ from those of the package')
    names = root.run('dpkg', '-L', 'gabzetu').split()
    want(not any(it.endswith('bin/tc') for it in names), 'the package has a program tc on the PATH')


def try_version(root: Root, front: str, version: str, tc: str) -> None:
    """Wants the front end to report the release, the program and the kit."""
    lines = root.run(front, '--version').splitlines()
    want(lines[0] == f'gabzetu {version}', f"`gabzetu --version` begins with '{lines[0]}'")
    want(f'tc: {tc}' in lines, f'`gabzetu --version` does not name {tc}')
    want(any(it.startswith('kit: ') for it in lines), '`gabzetu --version` does not name the kit')


def try_explore(root: Root) -> None:
    """Makes a page of the transcript that was played."""
    root.run('gabzetu', 'explore', '/root/join.transcript', '/root/join.html')
    page = read_text(root.at('/root/join.html'))
    want('<html' in page and '</html>' in page, '`gabzetu explore` wrote no whole page')


def try_open(root: Root, capture: str) -> Optional[str]:
    """Opens a capture, once python3-scapy is there. Returns why that was left out, or none."""
    shutil.copy(capture, root.at('/root/trial.pcap'))
    want(root.call('gabzetu', 'open', '/root/trial.pcap')[0] == MISSING, 'a capture is opened without python3-scapy')
    if root.call(*INSTALL, 'python3-scapy')[0]:
        return 'python3-scapy cannot be installed'
    want(root.run('gabzetu', 'open', '/root/trial.pcap'), '`gabzetu open` wrote nothing')
    return None


def try_tutorial(root: Root) -> Optional[str]:
    """Walks the pages with nothing but what is installed. Returns why that was left out, or none."""
    if root.call(*INSTALL, *OTHER_PROGRAMS)[0]:
        return f'{" ".join(OTHER_PROGRAMS)} cannot be installed'
    shutil.copy(WALK, root.at('/root/walk'))
    root.run('python3', '/root/walk', '--installed', '/usr', 'docs/TUTORIAL.md', 'README.md')
    return None


def try_hub(root: Root) -> Optional[str]:
    """Runs the example of a hub, and audits its log. Returns why that was left out, or none."""
    if not os.path.exists(root.at('/usr/lib/gabzetu/tc_centre')):
        return 'tc_centre is not in the package'
    said = root.run('python3', f'{EXAMPLES}/hub.py', *HUB, '/root/hub.store', '/root/hub.log')
    want('says 02' in said, f'the example of a hub says {said!r}')
    root.run('gabzetu', 'hub-log', '/root/hub.log', '-o', '/root/hub.transcript')
    root.run('gabzetu', 'audit', '/root/hub.transcript')
    return None


def try_library(root: Root) -> Optional[str]:
    """Compiles and runs the example in C over the library. Returns why that was left out, or none."""
    if not os.path.exists(root.at('/usr/lib/gabzetu/libtc_c.a')):
        return 'the library for C is not in the package'
    if root.call(*INSTALL, 'gcc', 'libc6-dev')[0]:
        return 'gcc cannot be installed'
    words = ['-I/usr/include/gabzetu', f'{EXAMPLES}/c/join.c', '/usr/lib/gabzetu/libtc_c.a', '-o', '/root/join']
    root.run('gcc', '-std=c99', *words)
    wanted = read_text(root.at(f'{EXAMPLES}/c/join.out'))
    want(root.run('/root/join') == wanted, 'the example in C writes something else than join.out')
    return None


def try_help(root: Root) -> None:
    """Wants the man page and the completions where the system looks for them."""
    root.run('gzip', '-t', '/usr/share/man/man1/gabzetu.1.gz')
    root.run('bash', '-n', '/usr/share/bash-completion/completions/gabzetu')
    for name in ('zsh/vendor-completions/_gabzetu', 'fish/vendor_completions.d/gabzetu.fish'):
        want(read_text(root.at(f'/usr/share/{name}')), f'/usr/share/{name} is missing')


def try_purge(root: Root) -> None:
    """Removes the package, and wants nothing of it left."""
    root.run('apt-get', 'purge', '-y', '-q', 'gabzetu')
    for name in ('bin', 'lib', 'share', 'share/doc'):
        place = f'/usr/{name}/gabzetu'
        want(not os.path.lexists(root.at(place)), f'{place} stays after the package was removed')


def try_archive(root: Root, archive: str, version: str) -> None:
    """Unpacks the archive elsewhere, checks its sums, and plays by it."""
    name = os.path.basename(archive)[: -len('.tar.zst')]
    subprocess.run(['tar', '--zstd', '-xf', archive, '-C', root.at('/opt')], check=True)
    root.run('sh', '-c', f'cd /opt/{name} && sha256sum --quiet -c share/doc/gabzetu/SHA256SUMS')
    try_version(root, f'/opt/{name}/bin/gabzetu', version, f'/opt/{name}/lib/gabzetu/tc')
    play_and_compare(root, f'/opt/{name}/bin/gabzetu', f'/opt/{name}/share/doc/gabzetu/examples')


def try_release(archive: str, package: str, version: str, capture: str, mirror: Optional[str]) -> None:
    """Tries both archives in a clean root, and reports each step. Stops at the first that fails."""
    if os.geteuid():
        raise Stop('a clean root needs root: run tools/release by sudo, or give --no-root', MISSING)
    steps = {
        'install the package': lambda root: try_install(root, package),
        'versions': lambda root: try_version(root, 'gabzetu', version, '/usr/lib/gabzetu/tc'),
        'play and audit': lambda root: play_and_compare(root, 'gabzetu', EXAMPLES),
        'explore': try_explore,
        'hub': try_hub,
        'library for C': try_library,
        'man page and completions': try_help,
        'open': lambda root: try_open(root, capture),
        'tutorial': try_tutorial,
        'remove the package': try_purge,
        'the archive': lambda root: try_archive(root, archive, version),
    }
    with trial_root(make_base(mirror)) as root:
        for name, step in steps.items():
            why = step(root)
            say(f'release: clean root: {name}: {f"skipped, {why}" if why else "ok"}')
