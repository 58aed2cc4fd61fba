"""gabzetu watch: what a real network does wrong, as a capture shows it."""
import argparse
import html
import json
from typing import Dict, Iterator, List

from ..capture import Capture
from ..explorer.pages import hash_of
from ..formats.words import counted
from ..opening import Opener
from ..output import keep_inputs, say, write_output
from ..runs import default_jobs
from ..watching.findings import HINT, Finding, Watcher
from .open import add_keys, add_reading, read_ring

SUMMARY = 'find what a real network does wrong, in a capture and with the keys that are known'
DESCRIPTION = """Finds what a real network does wrong, in a capture of a sniffer and with the keys that are known.

Verdicts are those of `tc audit`, over a transcript of what the frames were sealed with: a counter that is used twice
under one key with other bytes (a nonce twice), one that goes back, a replay, a key that travels under the well-known
key. What was not found is audited too, and is sound.

The rest are hints: a key in clear, a link key under the network key alone, a device that uses the old network key
after a switch, a removed device that is heard again, a key request without an answer, frames in clear where the others
are secured. What stays closed can't be watched: the end says how much that is.

A live interface: tshark -i IF -w - | gabzetu watch --follow - --key K. The status is 1 if something is found."""
FOUND = 1
STYLE = 'body{font:14px system-ui,sans-serif;margin:2em;max-width:60em}td,th{text-align:left;padding:3px 10px 3px 0}'
HEADS = ('kind', 'verdict', 'packets', 'what')


def add_arguments(parser: argparse.ArgumentParser) -> None:
    """Adds the words of the command."""
    parser.add_argument('capture', metavar='CAPTURE', help='a capture file, or - for standard input')
    add_keys(parser)
    add_reading(parser)
    parser.add_argument('-f', '--follow', action='store_true', help='go on as the file or pipe grows')
    parser.add_argument('--html', metavar='OUT', help='write the findings as a page too')
    parser.add_argument('--json', action='store_true', help='write JSON lines: an object for each finding')


def line_of(it: Finding) -> str:
    """Returns the line of a finding."""
    verdict = 'hint' if it.verdict == HINT else f'tc audit: {it.verdict}'
    packets = ', '.join(map(str, it.packets))
    return f'{it.kind}: packet {packets}: {it.text} ({verdict})'


def show(found: List[Finding], is_json: bool) -> None:
    """Prints findings."""
    for it in found:
        print(json.dumps(it._asdict()) if is_json else line_of(it), flush=True)


def page_of(title: str, watcher: Watcher, end: str) -> str:
    """Returns the page of the findings. It fetches nothing and runs nothing."""
    rows = [(it.kind, it.verdict, ', '.join(map(str, it.packets)), it.text) for it in watcher.findings]
    cells = ''.join('<tr>' + ''.join(f'<td>{html.escape(it)}</td>' for it in row) + '</tr>\n' for row in rows)
    heads = ''.join(f'<th scope="col">{it}</th>' for it in HEADS)
    return (
        '<!doctype html>\n<html lang="en"><head><meta charset="utf-8">\n'
        '<meta name="viewport" content="width=device-width, initial-scale=1">\n'
        f'<meta http-equiv="Content-Security-Policy" content="default-src \'none\'; style-src {hash_of(STYLE)}">\n'
        f'<title>{html.escape(title)}</title><style>{STYLE}</style></head><body>\n<h1>{html.escape(title)}</h1>\n'
        f'<p>{html.escape(end)}</p>\n<table><tr>{heads}</tr>\n{cells}</table></body></html>\n'
    )


def watch(capture: Capture, opener: Opener, arguments: argparse.Namespace) -> Watcher:
    """Takes the frames of a capture in their order, and prints what is found.

    Of a file, all frames are opened first, so that keys that are found late open earlier frames too."""
    watcher = Watcher()
    for frame, layers in (growing if arguments.follow else whole)(capture, opener):
        show(watcher.take(frame, layers), arguments.json)
    show(watcher.finish(), arguments.json)
    return watcher


def growing(capture: Capture, opener: Opener) -> Iterator[tuple]:
    """Yields the frames of a capture that grows with their layers, until it ends or Ctrl-C is pressed."""
    try:
        for frames in capture.parts():
            opener.addresses.learn_all(capture.take_associations())
            yield from opener.open_part(frames)
    except KeyboardInterrupt:
        pass


def whole(capture: Capture, opener: Opener) -> Iterator[tuple]:
    """Yields the frames of a file with all layers that open at its end, in the order of their packets."""
    waiting: Dict[int, tuple] = {}
    for frames in capture.parts():
        opener.addresses.learn_all(capture.take_associations())
        waiting.update((frame.number, (frame, layers)) for frame, layers in opener.open_part(frames))
    waiting.update((frame.number, (frame, layers)) for frame, layers in opener.open_again())
    yield from (waiting[number] for number in sorted(waiting))


def run(arguments: argparse.Namespace) -> int:
    """Runs the command, and returns the exit status."""
    keep_inputs([arguments.capture, *arguments.keys_from], [arguments.html])
    capture = Capture(arguments.capture, arguments.fcs, arguments.zep_port, arguments.follow)
    opener = Opener(read_ring(arguments), default_jobs())
    watcher = watch(capture, opener, arguments)
    end = (
        f'{counted(len(watcher.findings), "finding")} in {counted(capture.frames, "frame")}; '
        f'{counted(len(opener.closed), "frame")} stayed closed. tc audit of the rest: {watcher.rest}'
    )
    say(f'gabzetu: {end}')
    if arguments.html:
        title = 'standard input' if arguments.capture == '-' else arguments.capture
        write_output(arguments.html, page_of(title, watcher, end), is_private=True)
    return FOUND if watcher.findings else 0
