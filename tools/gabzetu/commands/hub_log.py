"""gabzetu hub-log: the transcript of the sessions of tc_centre."""
import argparse

from hub import log, transcript

from ..errors import WRONG_INPUT, Stop
from ..output import keep_inputs, read_input, say, write_output

SUMMARY = 'make a transcript of the log of sessions of tc_centre'
DESCRIPTION = """Makes a transcript of the sessions of tc_centre on one store, which `gabzetu audit` judges.

A LOG has a line `start` where a host started tc_centre, `> LINE` for each line to it, and `< LINE` for each line that
came back. Several files are one log. Each session must ask for a `backup` before its first event, so that it is known
what was stored of an event that had no answer. Such an event is written as one that was cut short.

The transcript has the lines of the centre alone, with the frames that it heard as injected ones. So its end line says
that not every accepted frame was sealed before. What had to be filled in is said on standard error."""


def add_arguments(parser: argparse.ArgumentParser) -> None:
    """Adds the words of the command."""
    parser.add_argument('logs', metavar='LOG', nargs='+', help='a log of sessions, or - for standard input')
    parser.add_argument('-o', '--output', metavar='OUT', help='write to this file, all or nothing')


def lines_of(path: str) -> list:
    """Returns the lines of a log."""
    try:
        return read_input(path).decode('ascii').splitlines()
    except UnicodeDecodeError as error:
        raise Stop(f'{path}: byte {error.start + 1} is not ASCII, so this is no log', WRONG_INPUT) from error


def run(arguments: argparse.Namespace) -> int:
    """Runs the command, and returns the exit status."""
    keep_inputs(arguments.logs, [arguments.output])
    lines = [line for path in arguments.logs for line in lines_of(path)]
    try:
        made = transcript.make(log.read(lines))
    except (log.BadLog, LookupError, ValueError, TypeError) as error:
        why = error if isinstance(error, log.BadLog) else f'an answer has another form than tc_centre gives ({error})'
        raise Stop(f'{" ".join(arguments.logs)}: {why}', WRONG_INPUT) from error
    for note in made.notes:
        say(f'gabzetu: {note}')
    write_output(arguments.output, made.text(), is_private=True)
    return 0
