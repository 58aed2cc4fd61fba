"""Asks `tc admin` what the store takes, on a store that is removed again."""
import os
import tempfile
from typing import List, Tuple

from .program import run_tc


def try_script(script: str) -> Tuple[int, List[str]]:
    """Returns the status and the lines of a script that is carried out on a new store."""
    with tempfile.TemporaryDirectory(prefix='gabzetu-') as folder:
        ran = run_tc(['admin', os.path.join(folder, 'store')], script.encode('ascii'))
    return ran.status, ran.output.decode('ascii', 'replace').splitlines()


def is_restored(status: int, lines: List[str]) -> bool:
    """Returns whether a script whose last command is `restore` made a store."""
    return status == 0 and lines[-1:] != [] and lines[-1].startswith('ok ')
