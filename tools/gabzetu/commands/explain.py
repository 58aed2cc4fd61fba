"""gabzetu explain: an event of a transcript in words, with the rule that answered it; or what a broken claim is
about."""
import argparse
from typing import List, Optional, Tuple

from .. import program, told
from ..errors import UNREADABLE, WRONG_USE, Stop
from ..formats import broken, diagnosis, policy, stories
from ..formats.causes import CLAIMS
from ..formats.grammar import printable
from ..formats.numbers import read_number
from ..formats.sentences import Speaker
from ..output import read_input, say, write_output

SUMMARY = 'say in words what an event of a transcript is, or why a claim is broken'
DESCRIPTION = """Says what the lines of an event mean, which rule of docs/POLICY.md answered it, and what a
refusal means.

The schedule has the words of the event; without it the lines show what they can. With --broken it is about a line
that breaks a claim: LINE and CLAIM are the words of `gabzetu audit`. Its whole answer, `broken LINE CLAIM`, may be
there in place of EVENT. Without EVENT and --broken tc is asked for the line."""

LONGEST = 110


def add_arguments(parser: argparse.ArgumentParser) -> None:
    """Adds the words of the command."""
    parser.add_argument('transcript', metavar='TRANSCRIPT', help='a transcript, or - for standard input')
    parser.add_argument(
        'words', metavar='EVENT', nargs='*', help='the number of the event, 0 for the start; or `broken LINE CLAIM`'
    )
    parser.add_argument('--broken', nargs=2, metavar=('LINE', 'CLAIM'), help='a line that breaks a claim')
    parser.add_argument('--schedule', metavar='SCHEDULE', help='the schedule of the transcript')
    parser.add_argument('--full', action='store_true', help='show long lines whole')


def number_of(word: str, what: str) -> Optional[int]:
    """Returns the number that a word is. Raises Stop where it is none."""
    number = read_number(word)
    if number is None:
        raise Stop(f'{what} is a number, and {word[:40]!r} is none', WRONG_USE)
    return number


class Teller:
    """Writes what lines and groups mean."""

    def __init__(self, lines: List[stories.Line], is_full: bool) -> None:
        self.lines = lines
        self.speaker = Speaker(stories.reader_of(lines))
        self.centre = stories.centre_of(lines)
        self.is_full = is_full

    def tell_line(self, line: stories.Line, mark: str = ' ') -> List[str]:
        """Returns a line of a transcript and its sentence, in lines."""
        text = printable(line.text if self.is_full or len(line.text) <= LONGEST else line.text[:LONGEST] + '..')
        said = printable(self.speaker.say(line.fields)) if line.fields else 'this is no line of a transcript'
        return [f'{mark}{line.number:6}  {text}', f'{"":9}{said}']

    def tell_lines(self, lines: List[stories.Line], marked: Optional[int] = None) -> List[str]:
        """Returns lines of a transcript and their sentences. `marked` is the number of the line to point at."""
        return [it for line in lines for it in self.tell_line(line, '>' if line.number == marked else ' ')]

    def tell_heard(self, story: stories.Story) -> List[str]:
        """Returns the lines on the frame that was delivered, where the schedule says which one it was."""
        line = story.heard(self.lines)
        if not line:
            return []
        sender = line.fields.get('node', '-')
        by = 'a stranger' if sender == '-' else sender
        what = self.speaker.what_goes_out(line.fields) or 'unreadable'
        return [printable(f'Frame {line.fields["frame"]}, sent by {by} in event {line.fields["event"]}: {what}'), '']

    def tell_rule(self, story: stories.Story) -> List[str]:
        """Returns the lines on the rule that answered, and on the refusal where there is one."""
        rule, refused, note = story.rule(), story.refusal(), story.note()
        said = ['', note] if note else []
        if rule:
            said += [
                '',
                f'The rule: {rule.title} (docs/POLICY.md, "{rule.place}")',
                *(f'  {head}: {text}' for head, text in rule.rows),
            ]
        return said + (self.tell_refusal(refused, rule, story.is_judged()) if refused else [])

    @staticmethod
    def tell_refusal(refused: dict, rule: Optional[stories.Rule], is_judged: bool) -> List[str]:
        """Returns the lines on a refusal: what it means, and the words of the policy on the judging of frames."""
        layer, reason = refused['layer'], refused['reason']
        why = policy.sentence_of_refusal(rule and rule.refused, layer, reason, is_judged)
        said = ['', f'Refused as {reason}: {why}']
        words = policy.judging().get(layer, {}).get(reason) if is_judged else None
        return said + ([f'  docs/POLICY.md, "Judging a frame": {reason}: {words}'] if words not in (None, why) else [])


def words_of_event(
    arguments: argparse.Namespace, event: int, lines: List[stories.Line]
) -> Optional[Tuple[int, List[str]]]:
    """Returns the line and the words of an event in the schedule, or none without one."""
    if not arguments.schedule or event == 0:
        return None
    data = read_input(arguments.schedule)
    why = stories.mismatch(lines, data)
    if why:
        raise Stop(f'{arguments.schedule}: {why}: it is the schedule of another run.', WRONG_USE)
    events = stories.schedule_events(data)
    return events[event - 1] if event <= len(events) else None


def explain_event(arguments: argparse.Namespace, lines: List[stories.Line], event: int) -> Optional[List[str]]:
    """Returns what an event is, in lines."""
    found = [line for group in stories.groups_of(lines) if group.event == event for line in group.lines]
    placed = words_of_event(arguments, event, lines)
    last = stories.last_event(lines)
    if not found and event > last:
        raise Stop(f'{arguments.transcript}: there is no event {event}; the last one is {last}')
    if not found:
        return [
            title_of(event, placed, None),
            'It has no lines: nothing changed, nothing was refused and nothing was sent.',
        ]
    teller = Teller(lines, arguments.full)
    story = stories.Story(stories.Group(event, found), teller.centre, placed and placed[1])
    said = [title_of(event, placed, story), *teller.tell_heard(story), *teller.tell_lines(found)]
    return said + (teller.tell_rule(story) if event else [])


def title_of(event: int, placed: Optional[Tuple[int, List[str]]], story: Optional[stories.Story]) -> str:
    """Returns the head of an event: the words of the schedule, else what the lines tell."""
    if event == 0:
        return 'The start'
    if placed:
        return f'Event {event}: `{" ".join(placed[1])}` (line {placed[0]} of the schedule)'
    known = story and story.event()
    node = story and story.node()
    if known == 'deliver':
        return f'Event {event}: a delivery to {node}'
    if known in ('inject', 'forge'):
        return f'Event {event}: {known}'
    return f'Event {event}' + (f': {known} of {node}' if known else f', of {node}' if node else '')


def explain_broken(arguments: argparse.Namespace, lines: List[stories.Line], number: int, claim: int) -> List[str]:
    """Returns what a line that breaks a claim is about, in lines."""
    if not 1 <= number <= len(lines):
        if not lines:
            return ['The input is empty: it has no end line (claim 6).']
        raise Stop(f'{arguments.transcript}: there is no line {number}; it has {len(lines)}')
    line = lines[number - 1]
    teller = Teller(lines, arguments.full)
    group = next(it for it in stories.groups_of(lines) if line in it.lines)
    said = [f'Line {number} breaks claim {claim}: {CLAIMS.get(claim, "there is no such claim")}.', '']
    reasons = broken.reasons(lines, line, claim)
    if reasons:
        said += ['Of this line that is so where one of these holds:', *(f'  - {it}' for it in reasons), '']
    related = [it for it in broken.related(lines, line, claim) if it not in group.lines]
    if related:
        said += ['Earlier lines that it goes back on:', *teller.tell_lines(related), '']
    return said + ['Its group:', *teller.tell_lines(group.lines, number)]


def ask_audit(arguments: argparse.Namespace, data: bytes) -> Optional[tuple]:
    """Returns the line and the claim that tc says is broken, or none and none."""
    ran = program.run_tc(['audit'], data)
    words = told.last_words(ran.output)
    if ran.status == 10:
        return int(words[1]), int(words[2])
    if ran.status == 0:
        say(f'gabzetu: {" ".join(words)}: no claim is broken. An EVENT says which event to explain.')
        return None, None
    raise Stop(
        told.fault_of('transcript', told.base_name(arguments.transcript), ran.status, ran.output),
        told.exit_status(ran.status),
    )


def read_words(arguments: argparse.Namespace) -> Optional[tuple]:
    """Returns the number of the event that is asked for, or none; and the line and the claim, or none."""
    words, is_answer = arguments.words, arguments.words[:1] == ['broken']
    if (words and arguments.broken) or len(words) not in ([3] if is_answer else [0, 1]):
        raise Stop('explain takes one EVENT, or `broken LINE CLAIM`, or --broken LINE CLAIM', WRONG_USE)
    if words and not is_answer:
        return number_of(words[0], 'EVENT'), None
    asked = words[1:] or arguments.broken
    return None, asked and tuple(map(number_of, asked, ['LINE', 'CLAIM']))


def run(arguments: argparse.Namespace) -> int:
    """Runs the command, and returns the exit status."""
    event, broken_words = read_words(arguments)
    data = read_input(arguments.transcript)
    lines = stories.read_text(data.decode('ascii', 'replace'))
    if event is not None:
        if not any(it.fields for it in lines):
            raise Stop(diagnosis.no_transcript(arguments.transcript, data), UNREADABLE)
        said = explain_event(arguments, lines, event)
    else:
        number, claim = broken_words or ask_audit(arguments, data)
        said = [] if number is None else explain_broken(arguments, lines, number, claim)
    write_output(None, ''.join(it.rstrip() + '\n' for it in said))
    return 0
