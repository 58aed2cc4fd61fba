"""Plays worked schedules by the program that is to be released: its bytes, and not those that a log speaks of."""
import glob
import os
import subprocess
import tempfile
from typing import List

from gabzetu.errors import WRONG_INPUT, Stop
from gabzetu.output import read_input

ROWS = os.path.join('tools', 'data', 'rows')


def worked_in(sources: str) -> List[str]:
    """Returns the paths of the worked schedules, without their endings."""
    found = sorted(it[: -len('.sched')] for it in glob.glob(os.path.join(sources, ROWS, '*.sched')))
    if not found:
        raise Stop(f'{ROWS}: no worked schedule is committed, and a release plays them', WRONG_INPUT)
    return found


def try_program(data: bytes, runner: List[str], sources: str) -> int:
    """Plays each worked schedule and compares the transcripts. Returns how many there are, or stops at a difference.

    Each was worked out apart from this repository. `runner` is the command that runs programs of this kind."""
    worked = worked_in(sources)
    with tempfile.TemporaryDirectory(prefix='release-') as folder:
        path = os.path.join(folder, 'tc')
        with open(path, 'wb') as file:
            file.write(data)
        os.chmod(path, 0o755)
        for it in worked:
            given, wanted = read_input(f'{it}.sched'), read_input(f'{it}.out')
            ran = subprocess.run([*runner, path, 'play'], input=given, stdout=subprocess.PIPE, check=False)
            if ran.stdout != wanted:
                name = os.path.relpath(it, sources)
                raise Stop(f'the program plays {name}.sched differently from {name}.out, so it stays here', WRONG_INPUT)
    return len(worked)
