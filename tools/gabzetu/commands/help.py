"""gabzetu help: what there is, a command, or the lines of a text."""
import argparse

from .. import cli, helping
from ..errors import WRONG_USE, Stop
from ..formats.words import suggestion
from ..output import write_output

SUMMARY = 'describe a command, or the lines of schedules, transcripts, captures, scripts and scenarios'


def add_arguments(parser: argparse.ArgumentParser) -> None:
    """Adds the words of the command."""
    parser.add_argument(
        'topic',
        metavar='TOPIC',
        nargs='?',
        help='a command, or one of ' + ', '.join(helping.TOPICS) + '; `help scenario` is of the lines',
    )


def run(arguments: argparse.Namespace) -> int:
    """Runs the command, and returns the exit status."""
    topic = arguments.topic
    parsers = cli.parsers_of(cli.make_parser())
    if topic is None:
        write_output(None, cli.make_parser().format_help())
    elif topic in helping.TOPICS:
        write_output(None, helping.describe_topic(topic))
    elif topic in parsers:
        write_output(None, parsers[topic].format_help())
    else:
        raise Stop(f"no command or topic '{topic}'{suggestion(topic, [*parsers, *helping.TOPICS])}", WRONG_USE)
    return 0
