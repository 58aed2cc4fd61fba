"""gabzetu make: a made schedule."""
import argparse

from .. import program
from ..formats.fields import read_text_line
from ..runs import add_output, finish, tell

SUMMARY = 'write the made schedule for N routers and devices'


def add_arguments(parser: argparse.ArgumentParser) -> None:
    """Adds the words of the command."""
    parser.add_argument('count', metavar='N', help='the number of routers and devices, 1 to 60')
    add_output(parser)


def run(arguments: argparse.Namespace) -> int:
    """Runs the command, and returns the exit status."""
    ran = program.run_tc(['make', arguments.count])
    status = finish(arguments, ran, read_text_line)
    tell('made', f'make {arguments.count}', ran, b'', 'N is a number from 1 to 60.')
    return status
