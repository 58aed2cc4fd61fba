"""gabzetu campaign: the end lines of many made schedules."""
import argparse

from .. import program, progress
from ..formats.fields import read_campaign_line
from ..runs import JOBS_USAGE, add_jobs, add_output, finish, tell

SUMMARY = 'play made schedules, and write the end line of each and a total'


USAGE = f'COUNT is a number from 1 to 1000, START one up to 4294966295. {JOBS_USAGE}'


def add_arguments(parser: argparse.ArgumentParser) -> None:
    """Adds the words of the command."""
    parser.add_argument('count', metavar='COUNT', help='the number of runs, 1 to 1000')
    parser.add_argument('start', metavar='START', nargs='?', default='0', help='the start value of the first run (0)')
    parser.add_argument('all_jobs', metavar='JOBS', nargs='?', help='the same as --jobs, as tc has it')
    add_jobs(parser)
    add_output(parser)


def run(arguments: argparse.Namespace) -> int:
    """Runs the command, and returns the exit status."""
    words = ['campaign', arguments.count, arguments.start, arguments.all_jobs or arguments.jobs]
    with progress.shown(f'{arguments.count} runs'):
        ran = program.run_tc(words)
    status = finish(arguments, ran, read_campaign_line)
    tell('made', ' '.join(words[:3]), ran, b'', USAGE)
    return status
