"""The command line: finds the commands, reads the words, runs one command and returns the exit status."""
import argparse
import contextlib
import importlib
import io
import os
import pkgutil
import signal
import sys
import threading
import traceback
from typing import Any, Dict, Iterator, List, Optional, Sequence

from . import commands
from .errors import OUT_OF_MEMORY, UNEXPECTED, UNREADABLE, UNWRITABLE, WRONG_USE, Stop, reason_of
from .formats.words import suggestion
from .output import say, shown, write_output

DESCRIPTION = 'Front end of the proved Zigbee trust centre program tc. Every verdict is that of tc.'
SEE_HELP = '`gabzetu help` lists the commands.'
DEBUG = 'show where an unexpected error came from'
EPILOG = '`gabzetu COMMAND --help` describes a command, `gabzetu help schedule` the lines of schedules.'


LONGEST_ERROR = 200


class Ended(BaseException):
    """A signal ends the program. What it holds is its number."""

    def __init__(self, number: int) -> None:
        super().__init__(number)
        self.number = number


class Parser(argparse.ArgumentParser):
    """A parser whose mistakes end with the status of wrong use. Options are written out."""

    def __init__(self, **how: Any) -> None:
        super().__init__(allow_abbrev=False, **how)

    def error(self, message: str) -> None:
        """Stops with the message and the usage."""
        raise Stop(f'{message}\n{self.format_usage().rstrip()}', WRONG_USE)

    def _print_message(self, message: str, file: Any = None) -> None:
        """Writes the text of --help, and says so where that fails, which argparse passes over."""
        write_output(None, message)


def command_names() -> List[str]:
    """Returns the names of the modules of commands, in order."""
    return sorted(it.name for it in pkgutil.iter_modules(commands.__path__))


def load_command(name: str) -> Any:
    """Returns the module of a command."""
    return importlib.import_module(f'{commands.__name__}.{name}')


def make_parser(names: Optional[List[str]] = None) -> argparse.ArgumentParser:
    """Returns the parser of some commands, or of all. A module from_zigpy.py is the command from-zigpy."""
    parser = Parser(prog='gabzetu', description=DESCRIPTION, epilog=EPILOG)
    parser.add_argument('--version', action='store_true', help='print the versions of the front end and of tc')
    parser.add_argument('--debug', action='store_true', help=DEBUG)
    places = parser.add_subparsers(title='commands', metavar='COMMAND', dest='command', parser_class=Parser)
    for name in command_names() if names is None else names:
        module = load_command(name)
        place = places.add_parser(name.replace('_', '-'), help=module.SUMMARY, description=describe(module))
        place.formatter_class = argparse.RawDescriptionHelpFormatter
        module.add_arguments(place)
        place.add_argument('--debug', action='store_true', help=DEBUG)
        place.set_defaults(run=module.run)
    return parser


def parsers_of(parser: argparse.ArgumentParser) -> Dict[str, argparse.ArgumentParser]:
    """Returns the parsers of the commands by their names."""
    return next(it.choices for it in parser._actions if isinstance(it, argparse._SubParsersAction))


def describe(module: Any) -> str:
    """Returns what `--help` says first of a command: its DESCRIPTION where it has one, else its summary."""
    return getattr(module, 'DESCRIPTION', module.SUMMARY[:1].upper() + module.SUMMARY[1:] + '.')


def count_of_values(parser: argparse.ArgumentParser, word: str) -> Any:
    """Returns how many of the words after this one are values of the option that it is, or none where it is none."""
    name, *value = word.split('=', 1) if word.startswith('--') else [word[:2], *([word[2:]] if word[2:] else [])]
    option = parser._option_string_actions.get(name)
    if option is None:
        return None
    return 0 if value else 1 if option.nargs is None else option.nargs


def with_options_first(parser: argparse.ArgumentParser, words: List[str]) -> List[str]:
    """Returns the words of a command with its options first: else argparse takes no optional word after an option."""
    options, places, at = [], [], 0
    while at < len(words) and words[at] != '--':
        count = count_of_values(parser, words[at])
        if count is None:
            places.append(words[at])
            at += 1
        elif at + count >= len(words):
            return words  # a value is missing, and argparse says so
        else:
            options += words[at : at + 1 + count]
            at += 1 + count
    return options + places + words[at:]


def run(words: Sequence[str]) -> int:
    """Runs the command of these words, and returns its exit status."""
    words = [*words[1:], words[0]] if words[:1] == ['--debug'] else words
    known = {name.replace('_', '-'): name for name in command_names()}
    parser = make_parser([known[words[0]]] if words and words[0] in known else None)
    if words and not words[0].startswith('-'):
        if words[0] not in known:
            raise Stop(f"there is no command '{shown(words[0])}'{suggestion(words[0], known)}\n{SEE_HELP}")
        words = [words[0], *with_options_first(parsers_of(parser)[words[0]], list(words[1:]))]
    arguments = parser.parse_args(words)
    if arguments.version:
        from .versions import describe_versions

        print(describe_versions())
        return 0
    if not arguments.command:
        raise Stop(f'which command?\n{parser.format_help().rstrip()}')
    return arguments.run(arguments) or 0


def fill_streams() -> None:
    """Opens the standard streams that are closed, so that no file of a command gets their place.

    Reading such an input fails, and so does writing such an output; what is said on standard error is lost."""
    for handle, how in ((0, os.O_WRONLY), (1, os.O_RDONLY), (2, os.O_WRONLY)):
        try:
            os.fstat(handle)
        except OSError:
            os.open(os.devnull, how)
    sys.stdin = sys.stdin or open(0, encoding='utf-8', closefd=False)
    sys.stdout = sys.stdout or open(1, 'w', encoding='utf-8', closefd=False)
    sys.stderr = sys.stderr or open(2, 'w', encoding='utf-8', closefd=False)
    if hasattr(sys.stdout, 'reconfigure'):
        sys.stdout.reconfigure(errors='backslashreplace')  # a terminal may lack a letter of a file's name


def drop_output() -> None:
    """Sends what is still buffered nowhere, after standard output took no more."""
    try:
        os.dup2(os.open(os.devnull, os.O_WRONLY), sys.stdout.fileno())
    except io.UnsupportedOperation:  # it is no file
        pass


def run_to_end(words: Sequence[str]) -> int:
    """Runs the command of these words until its output is written, and returns its exit status."""
    try:
        status = run(words)
    except SystemExit as ended:  # by --help
        status = int(ended.code or 0)
    sys.stdout.flush()
    return status


def end_by_signal(number: int, _frame: object) -> None:
    """Ends the program as an exception does, so that nothing half-written is left."""
    raise Ended(number)


@contextlib.contextmanager
def signals_as_exceptions() -> Iterator[None]:
    """Turns SIGTERM and SIGHUP into exceptions while the body runs."""
    if threading.current_thread() is not threading.main_thread():
        yield
        return
    before = {it: signal.signal(it, end_by_signal) for it in (signal.SIGTERM, signal.SIGHUP)}
    try:
        yield
    finally:
        for it, handler in before.items():
            signal.signal(it, handler)


def wants_trace(words: Sequence[str]) -> bool:
    """Returns whether `--debug` is among the words before `--`."""
    return '--debug' in (words[: words.index('--')] if '--' in words else words)


def tell_unexpected(error: Exception, words: Sequence[str]) -> int:
    """Says in a sentence what no command expects, and returns the exit status."""
    if wants_trace(words):
        say(traceback.format_exc().rstrip())
    if isinstance(error, MemoryError):
        say('gabzetu: the memory is not enough for this input')
        return OUT_OF_MEMORY
    if isinstance(error, RecursionError):
        say('gabzetu: the input is nested too deeply')
        return UNREADABLE
    what = f'{type(error).__name__}: {str(error)[:LONGEST_ERROR]}'
    say(
        f'gabzetu: this input was not foreseen ({what}). No output was written. '
        'Please report it with the input, and with what the same words and --debug show.'
    )
    return UNEXPECTED


def main(words: Sequence[str]) -> int:
    """Runs gabzetu with these words, and returns its exit status."""
    fill_streams()
    with signals_as_exceptions():
        return run_and_tell(words)


def run_and_tell(words: Sequence[str]) -> int:
    """Runs gabzetu with these words, says what went wrong, and returns its exit status."""
    try:
        return run_to_end(words)
    except Stop as stop:
        say(f'gabzetu: {stop.message}')
        if stop.status == UNWRITABLE:
            drop_output()
        return stop.status
    except BrokenPipeError:
        drop_output()
        return UNWRITABLE
    except OSError as error:
        say(f'gabzetu: {error.filename or "standard output: cannot be written"}: {reason_of(error)}')
        drop_output()
        return UNWRITABLE
    except KeyboardInterrupt:
        return 128 + signal.SIGINT
    except Ended as ended:
        drop_output()
        return 128 + ended.number
    except Exception as error:  # pylint: disable=broad-except (no trace reaches a user)
        return tell_unexpected(error, words)
