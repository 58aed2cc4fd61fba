"""gabzetu admin: carries out a script on a centre's store in a file."""
import argparse
import os
import sys
import tempfile
from typing import Any, Optional

from .. import program, told
from ..errors import UNWRITABLE, Stop, reason_of
from ..formats.fields import read_store_line
from ..formats.grammar import printable
from ..output import keep_inputs, read_for_tc, say
from ..program import Completed
from ..runs import add_output, json_lines, tell

SUMMARY = "carry out a script on a centre's store in a file"
DESCRIPTION = """Carries out the commands of a script on the store in the file STORE (docs/ADMIN.md).

Each line comes out when what its command changed is stored. So OUT is written line by line, and keeps what came out
also where a later command fails. A new STORE and OUT hold keys: only their owner may read them. tc locks STORE while
it runs. A second run at the same time ends with `busy` and changes nothing."""

KINDS = (b'net ', b'link ', b'send ', b'ok ', b'refuse ', b'{')
WARNING = b'tc: others may read or write '
PRIVATE = 0o077
STORE_FAULT = 7
RUN_AGAIN = 'Look at the disk and run it again: it goes on from what is on the disk.'


def add_arguments(parser: argparse.ArgumentParser) -> None:
    """Adds the words of the command."""
    parser.add_argument(
        'store', metavar='STORE', help='the file of the store; where there is none, `init` or `restore` makes it'
    )
    parser.add_argument('script', metavar='SCRIPT', help='a script (gabzetu help script), or - for standard input')
    add_output(parser, 'line by line')


class Lines:
    """Hands on each line as it comes. OUT is opened at the first line, so a refused script leaves it as it was."""

    def __init__(self, path: Optional[str], is_json: bool) -> None:
        self.path = path
        self.is_json = is_json
        self.file = sys.stdout.buffer if path in (None, '-') else None

    def hand_on(self, line: bytes) -> None:
        """Writes a line of tc, as it is or as a JSON line."""
        try:
            if self.file is None:
                self.file = open(self.path, 'wb')
            self.file.write(json_lines(line, read_store_line).encode() if self.is_json else line)
            self.file.flush()
        except BrokenPipeError:
            raise
        except OSError as error:
            raise Stop(
                f'{self.path or "standard output"}: cannot be written: {reason_of(error)}', UNWRITABLE
            ) from error

    def close(self) -> None:
        """Closes OUT where it was opened."""
        if self.file not in (None, sys.stdout.buffer):
            self.file.close()


def drop_cache(store: str) -> None:
    """Drops what the system has cached of the store, so that tc reads what is on the disk.

    After a failed sync of an earlier process the cache can differ from the disk, and tc can't ask for this itself. A
    file that is missing, or can't be opened, is left to tc: it says what is wrong with it."""
    try:
        handle = os.open(store, os.O_RDONLY | os.O_CLOEXEC) if os.path.isfile(store) else None
    except OSError:
        return
    if handle is not None:
        try:
            # only what is written to the disk can be dropped
            os.fsync(handle)
        except OSError as error:
            # the system reports this once, so tc would not hear of it
            raise Stop(f'{store}: cannot be synced: {reason_of(error)}. {RUN_AGAIN}', UNWRITABLE) from error
        finally:
            os.posix_fadvise(handle, 0, 0, os.POSIX_FADV_DONTNEED)
            os.close(handle)


def serve(store: str, given: bytes, lines: Lines) -> Completed:
    """Runs the script, hands on what it writes, and returns the status and the line of a fault."""
    fault = b''
    with tempfile.TemporaryFile() as script, tempfile.TemporaryFile() as said:
        script.write(given)
        script.seek(0)
        with program.start_tc(['admin', store], stdin=script, stderr=said) as process:
            for line in process.stdout:
                if line.startswith(KINDS):
                    lines.hand_on(line)
                else:
                    fault = line
        said.seek(0)
        hand_on_warnings(said)
    return Completed(process.returncode, fault)


def hand_on_warnings(said: Any) -> None:
    """Says what tc warned of. Its other sentences are on statuses, for which the front end has its own."""
    for line in said:
        if line.startswith(WARNING):
            say(f'gabzetu: {printable(line.decode("utf-8", "replace").rstrip()[len("tc: "):])}')


def why_not(store: str) -> str:
    """Returns why no store can be served at a path, where the path shows that; else nothing."""
    folder = os.path.dirname(store) or '.'
    if not os.path.isdir(folder):
        return f'there is no folder {folder}'
    if not os.path.lexists(store):
        return '' if os.access(folder, os.W_OK | os.X_OK) else f'you may not make a file in {folder}'
    if not os.path.exists(store):
        return 'it is a link to nowhere'
    if not os.path.isfile(store):
        return 'it is a folder' if os.path.isdir(store) else 'it is no regular file'
    return '' if os.access(store, os.R_OK | os.W_OK) else 'you may not read and write it'


def run(arguments: argparse.Namespace) -> int:
    """Runs the command, and returns the exit status."""
    keep_inputs([arguments.store, arguments.script], [arguments.output])
    given = read_for_tc(arguments.script)
    os.umask(PRIVATE)
    lines = Lines(arguments.output, arguments.json)
    # as a path that no option of tc can be
    store = os.path.join('.', arguments.store) if arguments.store.startswith('-') else arguments.store
    drop_cache(store)
    try:
        ran = serve(store, given, lines)
    finally:
        lines.close()
    path = arguments.script if ran.status == 5 else arguments.store
    tell('script', path, ran, given)
    why = why_not(store) if ran.status == STORE_FAULT else ''
    if why:
        say(f'  {arguments.store}: {why}')
    return told.exit_status(ran.status)
