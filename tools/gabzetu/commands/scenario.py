"""gabzetu scenario: the schedule of a scenario."""
import argparse

from .. import progress, told
from ..output import keep_inputs, read_input, write_output
from ..scenarios.steps import write_schedule

SUMMARY = 'write the schedule of a scenario, which has no frame numbers'
DESCRIPTION = """Writes the schedule of a scenario: lines such as `join d via r`, `lose last`, `rollover but d`.

The frame numbers come from playing what is there so far with tc. The lines of the scenario stay as comments, and after
each event that is refused a comment says why. `gabzetu help scenario` has the language."""


def add_arguments(parser: argparse.ArgumentParser) -> None:
    """Adds the words of the command."""
    parser.add_argument('scenario', metavar='SCENARIO', help='a scenario, or - for standard input')
    parser.add_argument(
        '-o', '--output', metavar='OUT', help='write to this file, all or nothing, and not to standard output'
    )


def run(arguments: argparse.Namespace) -> int:
    """Runs the command, and returns the exit status."""
    keep_inputs([arguments.scenario], [arguments.output])
    name, data = told.base_name(arguments.scenario), read_input(arguments.scenario)
    with progress.shown(f'scenario {name}'):
        text = write_schedule(name, data)
    write_output(arguments.output, text, is_private=True)
    return 0
