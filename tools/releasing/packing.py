"""Packs what was laid out: the archive for any place, the Debian package for /usr, and the check sums of both."""
import collections
import os
import shutil
import subprocess
import tarfile
from typing import List, Optional

from gabzetu.errors import MISSING, UNWRITABLE, Stop

from .layout import MAINTAINER, files_of, settle, sums_of

CONTROL = '''Package: gabzetu
Version: {version}
Architecture: {machine}
Maintainer: {maintainer}
Installed-Size: {size}
Depends: {needs}
Recommends: python3-scapy
Suggests: mscgen, parallel, tshark
Section: net
Priority: optional
Description: front end of a proved Zigbee trust centre
 The program tc is a verified reference of a Zigbee trust centre's security
 plane: keys, joining, rollover, removal, frame counters and sealed frames.
 It plays schedules of whole networks, judges transcripts, opens captures,
 and keeps the store of a hub. There is no radio in it.
 .
 gabzetu runs tc on files, explains mistakes, opens captures of any link
 type, and makes a page of a run or a capture. Every verdict is that of tc.
'''
INSTALL = '''gabzetu {version}, for Linux on {machine} with Python 3.8 or later

Run bin/gabzetu where this folder is, or install it:

    cp -a bin lib share /usr/local/

bin/gabzetu needs lib and share beside bin. For captures it needs python3-scapy.
The pages are in share/doc/gabzetu; begin with README.md and docs/TUTORIAL.md.
To check the files: sha256sum -c share/doc/gabzetu/SHA256SUMS
'''
LEVEL = '-19'

# version: the text of VERSION; commit: a Commit; needs: the Debian packages that the program needs; machine: a Machine
About = collections.namedtuple('About', 'version commit needs machine')


def run_tool(words: List[str], about: About) -> None:
    """Runs a packing tool, with the commit's date in place of the present one."""
    if not shutil.which(words[0]):
        raise Stop(f'{words[0]} is missing: apt-get install {words[0].replace("dpkg-deb", "dpkg")}', MISSING)
    variables = {**os.environ, 'SOURCE_DATE_EPOCH': str(about.commit.date), 'LC_ALL': 'C.UTF-8'}
    ran = subprocess.run(words, env=variables, stdout=subprocess.PIPE, stderr=subprocess.STDOUT, check=False)
    if ran.returncode:
        raise Stop(f'{words[0]} failed: {ran.stdout.decode("utf-8", "replace").strip()}', UNWRITABLE)


def owned_by_root(member: tarfile.TarInfo) -> tarfile.TarInfo:
    """Returns a member of an archive as one of root's."""
    member.uid = member.gid = 0
    member.uname = member.gname = 'root'
    return member


def members_of(folder: str) -> List[str]:
    """Returns all names below a folder, in order."""
    found = [os.path.join(at, it) for at, folders, names in os.walk(folder) for it in folders + names]
    return sorted(os.path.relpath(it, folder) for it in found)


def pack_archive(prefix: str, out: str, about: About) -> str:
    """Packs a laid out prefix as gabzetu-VERSION-MACHINE-linux.tar.zst, and returns its path."""
    name = f'gabzetu-{about.version}-{about.machine.name}-linux'
    with open(os.path.join(prefix, 'INSTALL'), 'w', encoding='utf-8') as file:
        file.write(INSTALL.format(version=about.version, machine=about.machine.title))
    settle(prefix, about.commit.date)
    plain = os.path.join(out, f'{name}.tar')
    with tarfile.open(plain, 'w', format=tarfile.GNU_FORMAT) as files:
        for it in ['.', *members_of(prefix)]:
            within = os.path.normpath(os.path.join(name, it))
            files.add(os.path.join(prefix, it), within, recursive=False, filter=owned_by_root)
    os.remove(os.path.join(prefix, 'INSTALL'))
    run_tool(['zstd', '-q', LEVEL, '--rm', plain], about)
    return f'{plain}.zst'


def size_of(folder: str) -> int:
    """Returns how many KiB the files of a folder take, each file and folder at least one."""
    sizes = [os.lstat(os.path.join(folder, it)).st_size for it in members_of(folder)]
    return sum(max(1, (it + 1023) // 1024) for it in sizes)


def pack_deb(root: str, out: str, about: About) -> str:
    """Packs a root, whose /usr is laid out, as gabzetu_VERSION_MACHINE.deb, and returns its path."""
    control = os.path.join(root, 'DEBIAN')
    needs = ', '.join(['python3 (>= 3.8)', *about.needs])
    about_it = {'version': about.version, 'machine': about.machine.debian, 'size': size_of(root), 'needs': needs}
    text = CONTROL.format(maintainer=MAINTAINER, **about_it)
    sums = sums_of(root, 'md5')
    os.mkdir(control)
    for name, content in (('control', text), ('md5sums', sums)):
        with open(os.path.join(control, name), 'w', encoding='utf-8') as file:
            file.write(content)
    settle(root, about.commit.date)
    path = os.path.join(out, f'gabzetu_{about.version}_{about.machine.debian}.deb')
    run_tool(['dpkg-deb', '--root-owner-group', '-Zxz', '--build', root, path], about)
    return path


def write_sums(out: str) -> str:
    """Writes SHA256SUMS over the files of a folder, and returns its path."""
    assert 'SHA256SUMS' not in files_of(out)
    text = sums_of(out)
    path = os.path.join(out, 'SHA256SUMS')
    with open(path, 'w', encoding='utf-8') as file:
        file.write(text)
    return path


def sign(path: str, key: Optional[str]) -> None:
    """Signs a file with a private key of `ssh-keygen`, as FILE.sig, if a key is named.

    To check it: ssh-keygen -Y verify -f ALLOWED -I gabzetu -n file -s SHA256SUMS.sig < SHA256SUMS"""
    if key is None:
        return
    words = ['ssh-keygen', '-q', '-Y', 'sign', '-f', key, '-n', 'file', path]
    try:
        none, pipe = subprocess.DEVNULL, subprocess.PIPE
        ran = subprocess.run(words, check=False, stdin=none, stdout=pipe, stderr=subprocess.STDOUT)
    except FileNotFoundError as error:
        raise Stop('ssh-keygen is missing: apt-get install openssh-client', MISSING) from error
    if ran.returncode or not os.path.exists(f'{path}.sig'):
        raise Stop(f'{key}: cannot sign: {ran.stdout.decode("utf-8", "replace").strip()}', UNWRITABLE)
