"""Reads logs of sessions: `start` when tc_centre was started, `> LINE` for a line to it, `< LINE` for one from it."""
import re
from typing import List, Optional

from hub.words import ENDS, EVENTS, HEADER, QUESTIONS


class BadLog(Exception):
    """Why a text isn't a log of sessions."""


class Asked:
    """A line to the program with its number in the session. `lines` answer it, without the last one, which is `word`:
    `ok`, `refuse`, or None if there was no answer."""

    def __init__(self, number: int, text: str, place: int) -> None:
        self.number, self.text, self.place = number, text, place
        self.lines: List[str] = []
        self.word: Optional[str] = None

    @property
    def kind(self) -> str:
        """Returns the first word of the line."""
        return self.text.split(' ')[0]

    @property
    def is_event(self) -> bool:
        """Returns whether the line is one of an event, and was carried out where it was answered."""
        return self.kind in EVENTS and self.word != 'refuse'

    @property
    def is_known(self) -> bool:
        """Returns whether the line is one of those that the tools know, or wasn't carried out."""
        return self.word == 'refuse' or self.kind in EVENTS or self.kind in HEADER + QUESTIONS


class Session:
    """What was asked in one run of the program, and the line with which it ended by itself, or None."""

    def __init__(self) -> None:
        self.asked: List[Asked] = []
        self.end: Optional[str] = None
        self.lines = 0

    def ask(self, text: str, place: int) -> None:
        """Takes a line to the program. Empty lines and comments count, and have no answer."""
        self.lines += 1
        if text and not text.startswith('#'):
            self.asked.append(Asked(self.lines, text, place))

    def hear(self, text: str, place: int) -> None:
        """Takes a line from the program."""
        waiting = next((it for it in self.asked if it.word is None), None)
        if text.startswith(ENDS):
            self.end = text
        elif waiting is None:
            raise BadLog(f'line {place}: an answer where nothing was asked')
        elif re.fullmatch(rf'(ok|refuse) {waiting.number}(?: .*)?', text):
            waiting.word = text.split(' ')[0]
        else:
            waiting.lines.append(text)

    def header(self, word: str) -> List[List[str]]:
        """Returns the words of the header lines of a kind that were taken."""
        return [it.text.split(' ') for it in self.asked if it.kind == word and it.word == 'ok']

    def events(self) -> List[Asked]:
        """Returns the events that were answered."""
        return [it for it in self.asked if it.is_event and it.word == 'ok']

    def cut(self) -> Optional[Asked]:
        """Returns the event that had no answer when the session ended, or none."""
        return next((it for it in self.asked if it.is_event and it.word is None), None)

    def first_backup(self) -> Optional[str]:
        """Returns the backup that was answered before any event, or none."""
        for it in self.asked:
            if it.is_event:
                return None
            if it.kind == 'backup' and it.word == 'ok':
                return it.lines[0]
        return None


def read(lines: List[str]) -> List[Session]:
    """Returns the sessions of a log. Empty lines are passed over: a host that starts anew ends a line that its
    predecessor may have begun."""
    sessions = []
    for place, line in enumerate(lines, 1):
        sign, _, text = line.partition(' ')
        if line == '':
            continue
        if line == 'start':
            sessions.append(Session())
        elif sign not in ('>', '<') or not sessions:
            raise BadLog(f'line {place}: it is neither `start` nor begins with `> ` or `< `')
        elif sign == '>':
            sessions[-1].ask(text, place)
        else:
            sessions[-1].hear(text, place)
    for asked in (it for session in sessions for it in session.asked if not it.is_known):
        raise BadLog(f'line {asked.place}: `{asked.kind}` is no line of a session that this tool knows')
    return [it for it in sessions if it.header('open')]
