"""gabzetu play: the transcript of a schedule."""
import argparse

from ..formats.fields import read_transcript_line
from ..output import MOST_OF_TC, say
from ..runs import add_output, run_file

SUMMARY = 'play a schedule, and write its transcript'


def add_arguments(parser: argparse.ArgumentParser) -> None:
    """Adds the words of the command."""
    parser.add_argument(
        'schedule', metavar='SCHEDULE', help='a schedule (gabzetu help schedule), or - for standard input'
    )
    add_output(parser)


def warn_of_size(output: bytes) -> None:
    """Says that a transcript is longer than `audit` reads, before it is written."""
    if len(output) > MOST_OF_TC:
        say(
            f'gabzetu: the transcript has {len(output):,} bytes, and `gabzetu audit` reads no more than '
            f'{MOST_OF_TC:,}: it will refuse it as too long. A shorter schedule can be audited.'
        )


def run(arguments: argparse.Namespace) -> int:
    """Runs the command, and returns the exit status."""
    path = arguments.schedule
    return run_file(arguments, ['play'], 'schedule', path, read_transcript_line, look_at=warn_of_size)
