"""gabzetu install: the link key of an install code."""
import argparse

from .. import program
from ..formats.fields import read_key_line
from ..runs import add_output, finish, tell

SUMMARY = 'write the link key of an install code'


def add_arguments(parser: argparse.ArgumentParser) -> None:
    """Adds the words of the command."""
    parser.add_argument('code', metavar='CODE', help='the digits of the install code, those of its CRC included')
    add_output(parser)


def run(arguments: argparse.Namespace) -> int:
    """Runs the command, and returns the exit status."""
    ran = program.run_tc(['install', arguments.code])
    status = finish(arguments, ran, read_key_line, has_keys=True)
    tell('code', repr(arguments.code), ran, b'')
    return status
