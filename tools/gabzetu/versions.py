"""The versions of the front end and of the program that it runs."""
import hashlib
import os
import subprocess
from typing import List, Optional

from . import TOP, read_version
from .errors import Stop
from .program import find_tc


def said_by_git(*words: str) -> str:
    """Returns what git says at the top of this clone."""
    ran = subprocess.run(['git', *words], cwd=TOP, capture_output=True, text=True, check=True)
    return ran.stdout.strip()


def read_commit() -> Optional[str]:
    """Returns the commit of this clone with `+` where files were edited, or none outside a clone."""
    if not os.path.exists(os.path.join(TOP, '.git')):
        return None
    try:
        commit = said_by_git('rev-parse', '--short=12', 'HEAD')
        edited = said_by_git('status', '--porcelain', '--untracked-files=no')
    except (OSError, subprocess.CalledProcessError):
        return None
    return commit + ('+' if edited else '')


def read_line(path: str) -> Optional[str]:
    """Returns the first line of a file, or none where there is no such file."""
    try:
        with open(path, encoding='utf-8', errors='replace') as file:
            return file.readline().strip()
    except OSError:
        return None


def describe_program() -> List[str]:
    """Returns the lines on tc: its path and hash, and the kit that built it where a file KIT beside it says so."""
    try:
        path = find_tc()
    except Stop:
        return ['tc: missing']
    with open(path, 'rb') as file:
        lines = [f'tc: {path}', f'tc sha256: {hashlib.sha256(file.read()).hexdigest()}']
    kit = read_line(os.path.join(os.path.dirname(path), 'KIT'))
    return lines + ([f'kit: {kit}'] if kit else [])


def describe_versions() -> str:
    """Returns the text of `gabzetu --version`."""
    commit = read_commit() or read_line(os.path.join(TOP, 'COMMIT'))
    return '\n'.join([f'gabzetu {read_version()}', *([f'commit: {commit}'] if commit else []), *describe_program()])
