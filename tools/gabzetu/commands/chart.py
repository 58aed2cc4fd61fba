"""gabzetu chart: a transcript as a picture for a page or a paper."""
import argparse
import os
import shutil
import subprocess
import sys
import tempfile
from typing import List, Optional

from ..charts import make_chart
from ..errors import MISSING, UNWRITABLE, WRONG_USE, Stop
from ..formats.history import make_history
from ..formats.transcripts import read_transcript
from ..output import keep_inputs, read_input, write_output

SUMMARY = 'draw a transcript as a message sequence chart, as .svg, .png or .msc'
DESCRIPTION = """Draws a transcript as a message sequence chart, by mscgen. Each OUT ends in .svg, .png, or .msc,
which is what mscgen reads.

Nodes are columns: the centre, the routers, the devices, and `outside` where frames were forged or injected. A frame is
an arrow to each node that judged it, with its number, what it carries, its counters, and what became of it: accepted
at which event (green), refused with the reason (red), or lost (grey, with a cross). A box shows what a node accepted
and stored in an event; it is a yellow hexagon where keys changed. Stops, and refusals of events that aren't
deliveries, are red; boots are blue.

A transcript doesn't show which frame a refusal of the NWK layer is of. With --schedule, the schedule that was played,
the chart does, and shows each event's words. Without, a frame that may be such a one is called `not accepted` in place
of lost.

Of a long run draw a part (--from, --to, --node), or use `gabzetu explore`."""
ENDINGS = ('.svg', '.png', '.msc')


def add_arguments(parser: argparse.ArgumentParser) -> None:
    """Adds the words of the command."""
    parser.add_argument('transcript', metavar='TRANSCRIPT', help='the transcript, - for the standard input')
    parser.add_argument('out', metavar='OUT', nargs='+', help='a picture, which ends in .svg, .png or .msc')
    parser.add_argument('--from', dest='first', type=int, default=1, metavar='EVENT', help='the first event to draw')
    parser.add_argument(
        '--to', dest='last', type=int, default=sys.maxsize, metavar='EVENT', help='the last event to draw'
    )
    parser.add_argument('--node', action='append', help='draw what this node does, sends and gets; may be given again')
    parser.add_argument('--schedule', metavar='S', help='the schedule that was played')


def check_outs(outs: List[str]) -> None:
    """Stops where an OUT has no known ending, or where mscgen is needed and missing."""
    for out in outs:
        if not out.endswith(ENDINGS):
            raise Stop(f'{out} ends in none of {", ".join(ENDINGS)}', WRONG_USE)
    if shutil.which('mscgen') is None and any(not out.endswith('.msc') for out in outs):
        raise Stop(
            'mscgen is missing, which draws charts (Debian: apt install mscgen); an OUT that ends in .msc needs none',
            MISSING,
        )


def picture(text: str, kind: str) -> Optional[bytes]:
    """Returns the picture of a chart as bytes.

    It is drawn in a folder of its own, so that a failure leaves nothing."""
    with tempfile.TemporaryDirectory() as folder:
        path = os.path.join(folder, 'chart')
        ran = subprocess.run(['mscgen', '-T', kind, '-o', path], input=text.encode(), capture_output=True, check=False)
        drawn = read_input(path) if os.path.exists(path) else b''
    if ran.returncode or not drawn:
        said = (ran.stderr or ran.stdout).decode(errors='replace').strip().partition('\n')[0]
        raise Stop(f'mscgen could not draw it: {said or "it wrote nothing"}', UNWRITABLE)
    return drawn


def draw(text: str, out: str) -> None:
    """Writes one picture, or stops with what to do in its place."""
    kind = os.path.splitext(out)[1][1:]
    if kind == 'msc':
        write_output(out, text)
        return
    try:
        drawn = picture(text, kind)
    except Stop as stop:
        other = '' if kind == 'svg' else '.svg, '
        raise Stop(f'{out}: {stop.message}; use {other}--from/--to, --node, or gabzetu explore', stop.status) from stop
    write_output(out, drawn)


def run(arguments: argparse.Namespace) -> int:
    """Runs the command, and returns the exit status."""
    check_outs(arguments.out)
    keep_inputs([arguments.transcript, arguments.schedule], arguments.out)
    history = make_history(read_transcript(arguments.transcript), arguments.schedule)
    text = make_chart(history, arguments.first, arguments.last, arguments.node)
    failures = []
    for out in arguments.out:
        try:
            draw(text, out)
        except Stop as stop:
            failures.append(stop)
    if failures:
        raise Stop('\n'.join(it.message for it in failures), failures[0].status)
    return 0
