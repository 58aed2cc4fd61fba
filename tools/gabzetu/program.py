"""Finds the proved program tc, and runs it."""
import collections
import os
import subprocess
from typing import Any, List

from . import TOP
from .errors import MISSING, Stop

# Where the package is PREFIX/share/gabzetu, tc is PREFIX/lib/gabzetu/tc.
BESIDE = os.path.normpath(os.path.join(TOP, '..', '..', 'lib', 'gabzetu', 'tc'))
INSTALLED = '/usr/lib/gabzetu/tc'
BUILT = os.path.join(TOP, 'crates', 'tc_cli', 'out', 'tc_cli')
HOW_TO_GET_IT = (
    'the program tc is missing. Install the package gabzetu, or run ./build in a clone of the repository, '
    'or set GABZETU_TC to the path of a built tc.'
)

# status: the exit status of tc; output: the bytes of its standard output
Completed = collections.namedtuple('Completed', 'status output')


def is_program(path: str) -> bool:
    """Returns whether a path is a file that can be run."""
    return os.path.isfile(path) and os.access(path, os.X_OK)


def find_tc() -> str:
    """Returns the path of tc: $GABZETU_TC, that of this installation, /usr/lib/gabzetu/tc, or the built one.

    Raises Stop where there is none."""
    named = os.environ.get('GABZETU_TC')
    if named:
        if is_program(named):
            return os.path.abspath(named)
        raise Stop(f'GABZETU_TC is {named!r}, and no program that can be run is there.', MISSING)
    for path in (BESIDE, INSTALLED, BUILT):
        if is_program(path):
            return path
    raise Stop(HOW_TO_GET_IT, MISSING)


def start_tc(words: List[str], **how: Any) -> subprocess.Popen:
    """Starts tc with these words. Its standard output is a pipe where `how` doesn't say otherwise."""
    how.setdefault('stdout', subprocess.PIPE)
    try:
        return subprocess.Popen([find_tc(), *words], **how)
    except OSError as error:
        raise Stop(f'tc cannot be started: {error}', MISSING) from error


def run_tc(words: List[str], given: bytes = b'') -> Completed:
    """Runs tc with these words on the given bytes, and returns its status and output.

    What tc writes on standard error is dropped: the front end has sentences of its own for each status."""
    with start_tc(words, stdin=subprocess.PIPE, stderr=subprocess.DEVNULL) as process:
        try:
            output, _ = process.communicate(given)
        except BaseException:
            process.kill()
            raise
    return Completed(process.returncode, output)
