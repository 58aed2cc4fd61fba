"""Lays out what is installed, under a prefix: bin, lib and share."""
import glob
import gzip
import hashlib
import os
import shutil
import subprocess
import sys
import tempfile
import time
from typing import Any, Dict, List, Union

from gabzetu.errors import WRONG_INPUT, Stop

from .commit import Commit
from .links import drop_dead_links

LICENCES = ('LICENSE', 'LICENSE-MIT', 'LICENSE-APACHE')
COMPLETIONS = {
    'bash': 'share/bash-completion/completions/gabzetu',
    'zsh': 'share/zsh/vendor-completions/_gabzetu',
    'fish': 'share/fish/vendor_completions.d/gabzetu.fish',
}
DOCS = 'share/doc/gabzetu'
# What the front end is in a clone, and under share/gabzetu: the names at the top.
FRONT_END = ('VERSION', 'COMMIT', 'tools', 'docs')
COPYRIGHT = '''Format: https://www.debian.org/doc/packaging-manuals/copyright-format/1.0/
Upstream-Name: gabzetu
Comment: the programs have code of libraries in them. The file NOTICES here has their licences.

Files: *
{copyright}
License: Expat or Apache-2.0

License: Expat
 {mit}

License: Apache-2.0
 The text is in /usr/share/common-licenses/Apache-2.0, and in LICENSE-APACHE here.
'''
SUMS = f'{DOCS}/SHA256SUMS'
MAINTAINER = 'Gabzetu maintainers <maintainers@users.noreply.gabzetu.example>'
OVERRIDES = '# The programs are the very files that the gate ran: nothing is taken out of them.\n'
CHANGES = '''gabzetu ({version}) stable; urgency=medium

  * The changes are in the file CHANGELOG.md in this folder.

 -- {maintainer}  {date}
'''


class Layout:
    """A folder that becomes /usr, or the top of the unpacked archive."""

    def __init__(self, sources: str, prefix: str) -> None:
        self.sources, self.prefix = sources, prefix

    def path(self, name: str) -> str:
        """Returns the path of a name under the prefix, whose folder exists then."""
        path = os.path.join(self.prefix, name)
        os.makedirs(os.path.dirname(path), exist_ok=True)
        return path

    def source(self, name: str) -> str:
        """Returns the path of a committed file. Stops where there is none."""
        path = os.path.join(self.sources, name)
        if not os.path.exists(path):
            raise Stop(f'{name} is not committed, and a release has it', WRONG_INPUT)
        return path

    def write(self, name: str, data: Union[bytes, str], mode: int = 0o644) -> None:
        """Writes bytes or text to a file under the prefix."""
        with open(self.path(name), 'wb') as file:
            file.write(data.encode() if isinstance(data, str) else data)
        os.chmod(self.path(name), mode)

    def copy(self, name: str, to: str) -> None:
        """Copies a committed file or folder to a name under the prefix, the tests of the front end left out."""
        source = self.source(name)
        if os.path.isdir(source):
            shutil.copytree(source, self.path(to), ignore=shutil.ignore_patterns('test', '__pycache__'))
        else:
            shutil.copy(source, self.path(to))


def lay_front_end(layout: Layout, commit: Any) -> None:
    """Lays out `gabzetu` as a clone has it, under share/gabzetu, and a link to it in bin.

    It reads the page on the policy, which is laid out with it."""
    for name in ('gabzetu', 'VERSION', 'tools/gabzetu', 'tools/hub', 'tools/hub-log', 'docs/POLICY.md'):
        layout.copy(name, f'share/gabzetu/{name}')
    layout.write('share/gabzetu/COMMIT', f'{commit.name[:12]}\n')
    os.symlink('../share/gabzetu/gabzetu', layout.path('bin/gabzetu'))


def lay_programs(layout: Layout, programs: Dict[str, bytes], kit: str) -> None:
    """Lays out the programs by their names, and the version of the kit beside them."""
    for name, data in programs.items():
        layout.write(f'lib/gabzetu/{name}', data, 0o755)
    layout.write('lib/gabzetu/KIT', f'{kit}\n')


def lay_library(layout: Layout, library: Dict[str, bytes]) -> None:
    """Lays out the library for C by the names of its files, its header and its page, if it was built."""
    for name, data in library.items():
        layout.write(f'lib/gabzetu/{name}', data)
    for name in ('tc.h', 'tc_heap.c') if library else ():
        layout.copy(f'include/{name}', f'include/gabzetu/{name}')
    if library:
        layout.copy('include/README.md', f'{DOCS}/include/README.md')


def lay_documents(layout: Layout, gate: List[str], notices: str) -> None:
    """Lays out pages, examples, licences, notices and the gate's last lines."""
    for path in sorted(glob.glob(os.path.join(layout.sources, '*.md'))):
        layout.copy(os.path.basename(path), f'{DOCS}/{os.path.basename(path)}')
    for name in ('docs', 'examples', *LICENCES):
        layout.copy(name, f'{DOCS}/{name}')
    os.remove(layout.path(f'{DOCS}/docs/gabzetu.1'))
    layout.write(f'{DOCS}/gate.txt', '\n'.join(gate) + '\n')
    layout.write(f'{DOCS}/NOTICES', notices)


def lay_changelog(layout: Layout, commit: Any) -> None:
    """Lays out Debian's changelog, which names the page that has the changes."""
    with open(layout.source('VERSION'), encoding='ascii') as file:
        version = file.read().strip()
    date = time.strftime('%a, %d %b %Y %H:%M:%S +0000', time.gmtime(commit.date))
    text = CHANGES.format(version=version, maintainer=MAINTAINER, date=date)
    layout.write(f'{DOCS}/changelog.gz', gzip.compress(text.encode(), 9, mtime=0))


def lay_overrides(layout: Layout, programs: Dict[str, bytes], library: Dict[str, bytes]) -> None:
    """Lays out what lintian is told: the programs are the very files that the gate ran, so nothing is stripped."""
    names = sorted(it for it in [*programs, *library] if not it.endswith('.a'))
    rows = [f'gabzetu: unstripped-binary-or-object [usr/lib/gabzetu/{name}]\n' for name in names]
    layout.write('share/lintian/overrides/gabzetu', OVERRIDES + ''.join(rows))


def lay_copyright(layout: Layout) -> None:
    """Lays out Debian's file `copyright`. LICENSE-MIT has a title, the line of the owners and the text."""
    with open(layout.source('LICENSE-MIT'), encoding='utf-8') as file:
        _, owner, *paragraphs = file.read().strip().split('\n\n')
    mit = '\n.\n'.join(paragraphs).replace('\n', '\n ')
    owner = owner.replace('Copyright (c)', 'Copyright:')
    layout.write(f'{DOCS}/copyright', COPYRIGHT.format(copyright=owner, mit=mit))


def lay_help(layout: Layout) -> None:
    """Lays out the man pages and the completions."""
    with tempfile.TemporaryDirectory() as folder:
        written_by(layout, 'man', '--folder', folder)
        for name in files_of(folder):
            with open(os.path.join(folder, name), 'rb') as file:
                layout.write(f'share/man/man1/{name}.gz', gzip.compress(file.read(), 9, mtime=0))
    for shell, name in COMPLETIONS.items():
        layout.write(name, written_by(layout, 'completions', shell))


def written_by(layout: Layout, *words: str) -> bytes:
    """Returns what the laid out front end writes for some words."""
    front = layout.path('share/gabzetu/gabzetu')
    ran = subprocess.run([sys.executable, front, *words], stdout=subprocess.PIPE, check=False)
    if ran.returncode:
        raise Stop(f'`gabzetu {" ".join(words)}` ended with status {ran.returncode}', WRONG_INPUT)
    return ran.stdout


def files_of(folder: str) -> List[str]:
    """Returns the regular files of a folder, by their names below it, in order."""
    found = [os.path.join(at, it) for at, _, names in os.walk(folder) for it in names]
    return sorted(os.path.relpath(it, folder) for it in found if not os.path.islink(it))


def sums_of(folder: str, kind: str = 'sha256') -> str:
    """Returns the check sums of the files of a folder, a line each, as sha256sum or md5sum writes them."""
    rows = []
    for name in files_of(folder):
        with open(os.path.join(folder, name), 'rb') as file:
            rows.append(f'{hashlib.new(kind, file.read()).hexdigest()}  {name}\n')
    return ''.join(rows)


def settle(folder: str, date: int) -> None:
    """Gives all files and folders their modes and one time, so that the same release comes out again."""
    for at, _, names in os.walk(folder, topdown=False):
        for path in (os.path.join(at, it) for it in names):
            if not os.path.islink(path):
                os.chmod(path, 0o755 if os.stat(path).st_mode & 0o100 else 0o644)
            os.utime(path, (date, date), follow_symlinks=False)
        os.chmod(at, 0o755)
        os.utime(at, (date, date))


def lay_out(
    sources: str,
    prefix: str,
    commit: Commit,
    programs: Dict[str, bytes],
    library: Dict[str, bytes],
    kit: str,
    gate: List[str],
    notices: str,
) -> None:
    """Lays out all that is installed, with the check sums of its files.

    Links of pages to what isn't installed become words."""
    layout = Layout(sources, prefix)
    lay_front_end(layout, commit)
    lay_programs(layout, programs, kit)
    lay_library(layout, library)
    lay_documents(layout, gate, notices)
    lay_changelog(layout, commit)
    lay_overrides(layout, programs, library)
    lay_copyright(layout)
    lay_help(layout)
    drop_dead_links(prefix)
    layout.write(SUMS, sums_of(prefix))
    settle(prefix, commit.date)
