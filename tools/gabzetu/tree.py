"""The commands and their words as the command line reads them: for completions and the man page."""
import argparse
import collections
from typing import Any, List, Optional, Tuple

from . import cli

# names: of an option, such as -o and --output, none of a word by its place; value: what the word or option's value
# is called, none where an option has none; choices: the values that there are, or none; help: a sentence; count: as
# argparse has it
Argument = collections.namedtuple('Argument', 'names value choices help count')

# name, summary, description, usage, arguments
Command = collections.namedtuple('Command', 'name summary description usage arguments')


def values_of(action: Any) -> Optional[str]:
    """Returns the names of the values of an argument, in one text, or none of a flag."""
    if action.nargs == 0:
        return None
    if isinstance(action.metavar, tuple):
        return ' '.join(action.metavar)
    return action.metavar or ('|'.join(map(str, action.choices)) if action.choices else action.dest.upper())


def read_argument(action: Any) -> Argument:
    """Returns an argument of argparse."""
    choices = [str(it) for it in action.choices] if action.choices else None
    return Argument(list(action.option_strings), values_of(action), choices, action.help or '', action.nargs)


def read_command(name: str, parser: argparse.ArgumentParser, summary: str) -> Command:
    """Returns the command of a parser."""
    arguments = [read_argument(it) for it in parser._actions if not isinstance(it, argparse._SubParsersAction)]
    return Command(name, summary, parser.description or '', usage_of(name, arguments), arguments)


def usage_of(name: str, arguments: List[Argument]) -> str:
    """Returns the words of a command in one line, the same on every terminal and with every version of argparse."""
    shown = {'?': '[{}]', '*': '[{} ..]', '+': '{} ..'}
    places = [shown.get(it.count, '{}').format(it.value) for it in arguments if not it.names]
    options = [
        f'[{it.names[0]}{" " + it.value if it.value else ""}]'
        for it in arguments
        if it.names and '--help' not in it.names
    ]
    return ' '.join(['gabzetu', name, *options, *places])


def read_tree() -> Tuple[Command, List[Command]]:
    """Returns the front end itself, and its commands in the order of their names."""
    parser = cli.make_parser()
    summaries = {
        it.dest: it.help
        for action in parser._actions
        if isinstance(action, argparse._SubParsersAction)
        for it in action._choices_actions
    }
    commands = [
        read_command(name, it, summaries.get(name, '')) for name, it in sorted(cli.parsers_of(parser).items())
    ]
    return read_command('gabzetu', parser, parser.description), commands


def options_of(command: Command) -> List[Argument]:
    """Returns the options of a command."""
    return [it for it in command.arguments if it.names]


def places_of(command: Command) -> List[Argument]:
    """Returns the words that a command takes by their place."""
    return [it for it in command.arguments if not it.names]
