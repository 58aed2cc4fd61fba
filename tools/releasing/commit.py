"""Reads what is committed: the commit and its date, the version, the files."""
import collections
import io
import os
import subprocess
import tarfile
from typing import List

from gabzetu import TOP
from gabzetu.errors import MISSING, WRONG_INPUT, Stop

# name: the whole hash; date: seconds since 1970
Commit = collections.namedtuple('Commit', 'name date')


def git(*words: str) -> bytes:
    """Returns what git writes, as bytes."""
    try:
        ran = subprocess.run(['git', *words], cwd=TOP, stdout=subprocess.PIPE, stderr=subprocess.PIPE, check=True)
    except FileNotFoundError as error:
        raise Stop('git is missing, and a release is made of a commit: apt-get install git', MISSING) from error
    except subprocess.CalledProcessError as error:
        said = error.stderr.decode('utf-8', 'replace').strip()
        raise Stop(f'git {words[0]} failed: {said}', WRONG_INPUT) from error
    return ran.stdout


def read_commit() -> Commit:
    """Returns the commit that is checked out."""
    name, date = git('log', '-1', '--format=%H %ct').decode().split()
    return Commit(name, int(date))


def edited_files() -> List[str]:
    """Returns the files that differ from the commit."""
    return [it[3:] for it in git('status', '--porcelain', '--untracked-files=no').decode().splitlines()]


def check_version(version: str, commit: Commit) -> None:
    """Stops where the commit has another version."""
    found = git('show', f'{commit.name}:VERSION').decode().strip()
    if found != version:
        how = f'edit and commit it, or release {found}'
        raise Stop(f"the committed file VERSION says '{found}', not '{version}': {how}", WRONG_INPUT)


def unpack_commit(commit: Commit, folder: str) -> str:
    """Writes the committed files to a folder, those under crates/ left out."""
    packed = git('archive', '--format=tar', commit.name, '--', '.', ':(exclude)crates')
    with tarfile.open(fileobj=io.BytesIO(packed)) as files:
        files.extractall(folder)
    return os.path.abspath(folder)
