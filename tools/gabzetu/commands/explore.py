"""gabzetu explore: a transcript or a report as one page to look around in."""
import argparse
import hashlib
import os
from typing import Any

from .. import opened, program
from ..errors import UNREADABLE, Stop
from ..explorer import pages
from ..explorer.reports import make_report
from ..explorer.runs import explain_verdict, make_run
from ..formats.reports import is_report, parse_report, read_heard
from ..formats.history import make_history
from ..formats.transcripts import parse_transcript
from ..output import keep_inputs, read_input, say, write_output
from .open import add_keys, add_reading, read_ring

SUMMARY = 'make one page of a capture, a transcript or a report, to look around in it by a browser'
DESCRIPTION = """Makes one page of a capture, a transcript or a report. It opens from the disk in any browser, and lets
it fetch nothing.

Of a transcript, the page has a lane for each node and a row for each event; at its side the frames field by field,
what each node holds after the event, the keys and the counters. With --schedule it shows each event's words, and of
which frame each refusal is. The verdict on the page is that of `tc audit`.

Of a capture of a sniffer it is made at once with the keys that you give: gabzetu explore x.pcapng x.html --code C
It has a lane for each short address and a row for each packet, what opened it, and a tree of where each key came from.

Of a report of `inspect` or `sniff`, it has a lane for each short address and a row for each packet, the keys that
opened it, and a tree of where each key came from. With --capture, the capture that the report is of, it shows the
packets' numbers in the file, their times, PANs and addresses, and the frames field by field.

j and k, or the arrows in the list of rows, go to the next and the previous row, / to the field for text; #e12 in the
address is event 12, #p28 packet 28."""

NO_AUDIT = ['', None, 'not audited, since tc is missing', 0]


def add_arguments(parser: argparse.ArgumentParser) -> None:
    """Adds the words of the command."""
    parser.add_argument('input', metavar='FILE', help='the capture, transcript or report, - for standard input')
    parser.add_argument('out', metavar='OUT.html', help='the page, - for the standard output')
    parser.add_argument('--schedule', metavar='S', help='the schedule that was played')
    parser.add_argument('--capture', metavar='P', help='the capture that the report is of')
    add_keys(parser)
    add_reading(parser)


def audit(text: str) -> list:
    """Returns the verdict of tc on a transcript, for the page; a page is made without it where tc is missing."""
    try:
        return explain_verdict(program.run_tc(['audit'], text.encode()))
    except Stop as stop:
        say(f'gabzetu: the page has no verdict: {stop.message}')
        return NO_AUDIT


def title_of(path: str) -> str:
    """Returns the title of the page of an input."""
    return 'standard input' if path == '-' else os.path.basename(path)


def explore_transcript(text: str, arguments: argparse.Namespace) -> dict:
    """Returns the data of the page of a transcript."""
    if arguments.capture:
        raise Stop('--capture is for a report, and this is a transcript (--schedule)')
    history = make_history(parse_transcript(text, arguments.input), arguments.schedule)
    return {**make_run(history), 'verdict': audit(text)}


def explore_report(text: str, arguments: argparse.Namespace) -> Any:
    """Returns the data of the page of a report."""
    if arguments.schedule:
        raise Stop('--schedule is for a transcript, and this is a report (--capture)')
    heard = read_heard(arguments.capture) if arguments.capture else None
    return make_report(parse_report(text, arguments.input), heard, arguments.capture)


def read_text(path: str) -> str:
    """Returns the text of a file, or stops where it isn't ASCII."""
    try:
        return read_input(path).decode('ascii')
    except UnicodeDecodeError as error:
        raise Stop(
            f'{path}: byte {error.start + 1} is not ASCII; this is no transcript and no report', UNREADABLE
        ) from error


def run_on_capture(arguments: argparse.Namespace) -> int:
    """Makes the page of a capture of a sniffer, and returns the exit status."""
    if arguments.schedule or arguments.capture:
        raise Stop('--schedule and --capture are for transcripts and reports, and this is a capture')
    found = opened.open_capture(arguments.input, read_ring(arguments), arguments.fcs, arguments.zep_port)
    title, text = title_of(arguments.input), found.text()
    digest = hashlib.sha256(text.encode()).hexdigest()
    data = make_report(found.report(), found.heard(), arguments.input)
    page = pages.make_page({**data, 'title': title, 'text': text, 'digest': digest}, title)
    write_output(arguments.out, page, is_private=True)
    return 0


def run(arguments: argparse.Namespace) -> int:
    """Runs the command, and returns the exit status."""
    read = [arguments.input, arguments.schedule, arguments.capture, *arguments.keys_from]
    keep_inputs(read, [arguments.out])
    if opened.is_capture(arguments.input):
        return run_on_capture(arguments)
    if arguments.code or arguments.key or arguments.keys_from:
        raise Stop(f'{arguments.input}: keys are for a capture, and this is none')
    text = read_text(arguments.input)
    data = explore_report(text, arguments) if is_report(text) else explore_transcript(text, arguments)
    title, digest = title_of(arguments.input), hashlib.sha256(text.encode()).hexdigest()
    page = pages.make_page({**data, 'title': title, 'text': text, 'digest': digest}, title)
    write_output(arguments.out, page, is_private=True)
    return 0
