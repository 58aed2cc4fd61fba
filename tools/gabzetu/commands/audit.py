"""gabzetu audit: whether all that is claimed of transcripts holds of one."""
import argparse

from ..formats.fields import read_verdict_line
from ..runs import add_output, run_file

SUMMARY = 'judge a transcript that anybody wrote'
DESCRIPTION = """Judges a transcript: `sound SEALS ACCEPTS WORD`, or `broken LINE CLAIM` with status 10.

`gabzetu explain TRANSCRIPT` says what a broken line and its claim are about."""


def add_arguments(parser: argparse.ArgumentParser) -> None:
    """Adds the words of the command."""
    parser.add_argument('transcript', metavar='TRANSCRIPT', help='a transcript, or - for standard input')
    add_output(parser)


def run(arguments: argparse.Namespace) -> int:
    """Runs the command, and returns the exit status."""
    return run_file(arguments, ['audit'], 'transcript', arguments.transcript, read_verdict_line, has_keys=False)
