"""gabzetu check: the mistakes of schedules, captures and scripts. Whether a file is right is said by tc."""
import argparse
import collections
import json
import os
import tempfile
from typing import Iterator, List

from .. import program, told
from ..errors import MISSING, UNWRITABLE, WRONG_INPUT, Stop
from ..formats import diagnosis
from ..formats.causes import CAUSES
from ..formats.grammar import Mistake, describe, read_lines
from ..output import read_for_tc, say, write_output
from ..scenarios.steps import faults_of, write_schedule

SUMMARY = 'find the mistakes of a schedule, capture, script or scenario'
DESCRIPTION = """Finds mistakes, each with its line, its column, the word, and what is wanted there.

tc is asked in the end: the status is that of tc, 0 where it takes the file and 5 where it refuses it. A script is
tried on a store of its own, and touches no other. Of a file that is refused, the lines after the refused one are
looked at too, up to 100 mistakes. Of a schedule that is right, deliveries of frames that are never
sent are noted. A scenario is a file whose name ends with .scn."""

MOST_SHOWN, MOST_FOUND = 20, 100
SCENARIO = '.scn'

# What tc says of a file: status, line and cause of a refusal; output: what it wrote
Verdict = collections.namedtuple('Verdict', 'status line cause output')


def add_arguments(parser: argparse.ArgumentParser) -> None:
    """Adds the words of the command."""
    parser.add_argument('files', metavar='FILE', nargs='+', help='a file, or - for standard input')
    parser.add_argument(
        '--kind', choices=sorted(diagnosis.READERS), help='what the files are; without it their lines tell'
    )
    parser.add_argument(
        '--all', action='store_true', help=f'show up to {MOST_FOUND} mistakes, not the first {MOST_SHOWN}'
    )
    parser.add_argument('--json', action='store_true', help='write JSON lines: an object for each mistake')


def ask_tc(kind: str, data: bytes) -> Verdict:
    """Returns what tc says of a text of this kind. A script is served on a store in a folder of its own."""
    if kind == 'script':
        with tempfile.TemporaryDirectory() as folder:
            ran = program.run_tc(['admin', os.path.join(folder, 'store')], data)
    else:
        ran = program.run_tc(['play'] if kind == 'schedule' else ['inspect', '1'], data)
    words = told.last_words(ran.output)
    is_refused = ran.status == 5 and len(words) == 3
    return Verdict(ran.status, *((int(words[1]), words[2]) if is_refused else (None, None)), ran.output)


def object_of(path: str, mistake: Mistake) -> dict:
    """Returns the fields of a mistake, without those that it has not."""
    fields = {'file': 'standard input' if path == '-' else path, **mistake._asdict()}
    return {key: value for key, value in fields.items() if value is not None}


def unseen(kind: str, data: bytes, verdict: Verdict) -> Mistake:
    """Returns the words on a refusal of tc whose line has no mistake that the readers see."""
    text = next((it.text for it in read_lines(data) if it.number == verdict.line), '')
    sentence = CAUSES[kind].get(verdict.cause, verdict.cause)
    return Mistake(verdict.line, 1, text, f'tc refuses this line: {verdict.cause}: {sentence}', verdict.cause, None)


def mistakes_of(kind: str, data: bytes, verdict: Verdict) -> List[Mistake]:
    """Returns the mistakes of a text that tc refuses. Its own line is among them, whatever the readers see."""
    found = diagnosis.find_mistakes(kind, data, verdict.line or 1, MOST_FOUND)
    if verdict.line is not None and verdict.line not in [it.line for it in found]:
        found.append(unseen(kind, data, verdict))
    return sorted(found)


def notes_of(name: str, data: bytes, output: bytes) -> Iterator[str]:
    """Yields a note for each delivery of a frame that wasn't on the air by then."""
    lines = [it for it in read_lines(data) if it.words[0].text not in diagnosis.schedules.DECLARED]
    sent = 0
    for words in (line.split(' ') for line in output.decode('ascii', 'replace').splitlines()):
        if words[1:2] in (['send'], ['inject']):
            sent += 1
        elif words[1:2] == ['refuse'] and words[3:5] == ['event', 'no-frame']:
            line = lines[int(words[0]) - 1]
            place = f"{name}:{line.number}:9: note: '{line.words[1].text}'"
            yield f'{place}: this frame was not sent before; {sent} frames were'


def report(arguments: argparse.Namespace, path: str, found: List[Mistake]) -> None:
    """Writes mistakes, at most some of them."""
    name = told.base_name(path)
    shown = found if arguments.all else found[:MOST_SHOWN]
    if arguments.json:
        write_output(None, ''.join(json.dumps(object_of(path, it)) + '\n' for it in shown))
    else:
        write_output(None, ''.join(f'{name}:{describe(it)}\n' for it in shown))
    left = len(found) - len(shown)
    if left:
        say(f'gabzetu: {name}: {left} more (--all shows them)')
    if len(found) >= MOST_FOUND:
        say(f'gabzetu: {name}: after {MOST_FOUND} mistakes no more are looked for')


def check_scenario(arguments: argparse.Namespace, path: str, data: bytes) -> int:
    """Checks a scenario, and returns the status. It stops where no schedule comes of one whose lines are right."""
    found, name = faults_of(data), told.base_name(path)
    if found:
        report(arguments, path, found)
        return WRONG_INPUT
    write_schedule(name, data)
    if not arguments.json:
        write_output(None, f'{name}: a scenario, right\n')
    return 0


def check(arguments: argparse.Namespace, path: str) -> int:
    """Checks a file, and returns the status of tc."""
    data, name = read_for_tc(path), told.base_name(path)
    if path.endswith(SCENARIO) and not arguments.kind:
        return check_scenario(arguments, path, data)
    other = diagnosis.other_kind_of(data)
    if other and not arguments.kind:
        say(f'gabzetu: {name}: this is {other}. --kind says that it is meant to be something else.')
        return 5
    kind = arguments.kind or diagnosis.kind_of(path, data)
    verdict = ask_tc(kind, data)
    if verdict.status == 5:
        report(arguments, path, mistakes_of(kind, data, verdict))
        return 5
    if verdict.status:
        say(f'gabzetu: {told.fault_of(kind, name, verdict.status, verdict.output)}')
        return told.exit_status(verdict.status)
    if not arguments.json:
        notes = list(notes_of(name, data, verdict.output)) if kind == 'schedule' else []
        write_output(None, ''.join(it + '\n' for it in [*notes, f'{name}: a {kind}, right']))
    return 0


def check_or_say(arguments: argparse.Namespace, path: str) -> int:
    """Checks a file, and returns the status. What keeps it from being checked is said, and the next file's turn
    comes."""
    try:
        return check(arguments, path)
    except Stop as stop:
        if stop.status in (MISSING, UNWRITABLE):
            raise
        say(f'gabzetu: {stop.message}')
        return stop.status


def run(arguments: argparse.Namespace) -> int:
    """Runs the command, and returns the exit status."""
    return max(check_or_say(arguments, path) for path in arguments.files)
