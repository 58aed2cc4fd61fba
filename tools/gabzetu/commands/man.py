"""gabzetu man: the man pages."""
import argparse
import os

from ..output import write_output

SUMMARY = 'write the man page gabzetu.1, or one for each command too'


def add_arguments(parser: argparse.ArgumentParser) -> None:
    """Adds the words of the command."""
    parser.add_argument(
        '-o', '--output', metavar='OUT', help='write to this file, all or nothing, and not to standard output'
    )
    parser.add_argument(
        '--folder',
        metavar='FOLDER',
        help='write gabzetu.1 and a page gabzetu-COMMAND.1 for each command to this folder',
    )


def run(arguments: argparse.Namespace) -> int:
    """Runs the command, and returns the exit status."""
    from ..manual import write_manual, write_pages

    if arguments.folder is None:
        write_output(arguments.output, write_manual())
        return 0
    for name, text in write_pages().items():
        write_output(os.path.join(arguments.folder, name), text)
    return 0
