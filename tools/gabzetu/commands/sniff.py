"""gabzetu sniff: what the frames of a pcap file show."""
import argparse
from typing import Optional

from .. import program, told
from ..formats.fields import read_report_line
from ..output import say
from ..runs import JOBS_USAGE, add_jobs, add_output, run_file

SUMMARY = 'open the frames of a pcap file (link types 195 and 230), and write a report'
DESCRIPTION = """Opens the data frames of a pcap file under keys and install codes.

The frames of the report are counted by themselves: frame 21 is the 21st payload and not the 21st packet of the file.
`gabzetu open` reads more kinds of files, and numbers packets as the file does."""

KEY_DIGITS = 32


def add_arguments(parser: argparse.ArgumentParser) -> None:
    """Adds the words of the command."""
    parser.add_argument('capture', metavar='CAPTURE', help='a pcap file, or - for standard input')
    parser.add_argument('keys', metavar='KEY', nargs='*', help='a key of 32 digits, or an install code with its CRC')
    add_jobs(parser)
    add_output(parser)


def fault_of_key(word: str) -> Optional[str]:
    """Returns why a word is neither a key nor an install code, or none where it is one."""
    if len(word) == KEY_DIGITS and all(it in '0123456789abcdefABCDEF' for it in word):
        return None
    ran = program.run_tc(['install', word])
    return told.fault_of(
        'code', f'{word!r} is no key of {KEY_DIGITS} digits, and as an install code', ran.status, ran.output
    )


def run(arguments: argparse.Namespace) -> int:
    """Runs the command, and returns the exit status."""
    words = ['sniff', arguments.jobs, *arguments.keys]
    status = run_file(
        arguments, words, 'pcap', arguments.capture, read_report_line, f'{JOBS_USAGE} There may be 256 keys.'
    )
    if status == 2:
        for fault in filter(None, map(fault_of_key, arguments.keys)):
            say(f'gabzetu: {fault}')
    return status
