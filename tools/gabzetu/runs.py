"""Runs a command of tc for a command of the front end: its input, its output as text or JSON lines, and what is told
of faults."""
import argparse
import json
import os
from typing import Any, Callable, List, Optional

from . import program, progress, told
from .formats import diagnosis
from .output import keep_inputs, read_for_tc, say, write_output

MOST_JOBS = 64
JOBS_USAGE = 'JOBS is a number from 1 to 64.'

# The statuses at which the output of tc is an answer and no fault: all is well, and a broken claim.
ANSWERS = (0, 10)


def add_output(parser: argparse.ArgumentParser, how: str = 'all or nothing') -> None:
    """Adds `-o OUT` and `--json`. `how` says how OUT is written."""
    parser.add_argument(
        '-o', '--output', metavar='OUT', help=f'write to this file, {how}, and not to standard output'
    )
    parser.add_argument('--json', action='store_true', help='write JSON lines: an object for each line of the output')


def add_jobs(parser: argparse.ArgumentParser) -> None:
    """Adds `-j JOBS`."""
    parser.add_argument(
        '-j',
        '--jobs',
        metavar='JOBS',
        default=str(default_jobs()),
        help='the number of jobs, 1 to 64 (one for each processor); the output is the same for all',
    )


def default_jobs() -> int:
    """Returns the number of processors that this process may use, at most as many as tc takes jobs."""
    return min(len(os.sched_getaffinity(0)), MOST_JOBS)


def object_of(line: str, reader: Callable[..., Any]) -> dict:
    """Returns the fields of a line, and of a line that `reader` does not know its text."""
    return reader(line.split(' ')) or {'kind': 'other', 'text': line}


def json_lines(output: bytes, reader: Callable[..., Any]) -> str:
    """Returns the JSON lines of the lines of an output."""
    lines = output.decode('ascii', 'replace').splitlines()
    return ''.join(json.dumps(object_of(line, reader)) + '\n' for line in lines)


def tell(kind: str, path: str, ran: program.Completed, given: bytes, usage: str = '') -> None:
    """Says on standard error what a status means, and of a refused text what is wrong with its line.

    `usage` says which words the command takes."""
    name = told.base_name(path)
    fault = told.fault_of(kind, name, ran.status, ran.output)
    if not fault:
        return
    say(f'gabzetu: {fault}{" " + usage if ran.status == 2 and usage else ""}')
    words = told.last_words(ran.output)
    if ran.status == 5 and len(words) > 2 and words[1].isdigit():
        other = diagnosis.other_than(kind, path, given)
        hints = [f' this is {other}'] if other else diagnosis.hints(kind, given, int(words[1]))
        for hint in hints:
            say(f'  {name}:{hint}')


def finish(
    arguments: argparse.Namespace, ran: program.Completed, reader: Callable[..., Any], has_keys: bool = False
) -> int:
    """Writes an answer of tc as text or JSON lines, and returns the exit status. `has_keys` says what is in it."""
    if ran.status in ANSWERS:
        written = json_lines(ran.output, reader) if arguments.json else ran.output
        write_output(arguments.output, written, is_private=has_keys)
    return told.exit_status(ran.status)


def run_file(
    arguments: argparse.Namespace,
    words: List[str],
    kind: str,
    path: str,
    reader: Callable[..., Any],
    usage: str = '',
    has_keys: bool = True,
    look_at: Optional[Callable[..., Any]] = None,
) -> int:
    """Runs tc on the content of a file, and returns the exit status.

    `has_keys` says whether its output has keys. `look_at` is called with the output before it is written."""
    keep_inputs([path], [arguments.output])
    given = read_for_tc(path)
    with progress.shown(f'{words[0]} {told.base_name(path)}'):
        ran = program.run_tc(words, given)
    if look_at and ran.status in ANSWERS:
        look_at(ran.output)
    status = finish(arguments, ran, reader, has_keys)
    tell(kind, path, ran, given, usage)
    return status
