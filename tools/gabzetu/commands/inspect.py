"""gabzetu inspect: what the frames of a text capture show."""
import argparse

from ..formats.fields import read_report_line
from ..runs import JOBS_USAGE, add_jobs, add_output, run_file

SUMMARY = 'open the frames of a text capture, and write a report'


def add_arguments(parser: argparse.ArgumentParser) -> None:
    """Adds the words of the command."""
    parser.add_argument(
        'capture', metavar='CAPTURE', help='a text capture (gabzetu help capture), or - for standard input'
    )
    add_jobs(parser)
    add_output(parser)


def run(arguments: argparse.Namespace) -> int:
    """Runs the command, and returns the exit status."""
    return run_file(
        arguments, ['inspect', arguments.jobs], 'capture', arguments.capture, read_report_line, JOBS_USAGE
    )
