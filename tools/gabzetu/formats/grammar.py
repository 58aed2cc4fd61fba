"""Reads a line by a table of forms, and says what is wrong with it: where, which word, and what was wanted.

A form is a text such as `deliver FRAME NAME`: words in lower case are those very words, others are places, whose
kinds of words the table has by their name."""
import collections
import io
import re
from typing import Any, Dict, Iterator, List, Optional, Tuple

from .words import Literal, Rest, counted, near

# line, column: from 1; text: the word or line; message: what is wrong; cause: as tc would refuse it; earlier: the
# line of an earlier thing that this clashes with, or none
Mistake = collections.namedtuple('Mistake', 'line column text message cause earlier')

# A line of a text: number from 1, text, words with their columns
Line = collections.namedtuple('Line', 'number text words')
Word = collections.namedtuple('Word', 'text column')

LONGEST_SHOWN = 40
# What is looked at of a line. Only a line with a backup may be longer.
LONGEST_LINE, MOST_WORDS, BACKUP = 4096, 4096, 'restore '


def printable(text: str) -> str:
    """Returns a text with escapes for what isn't printed: a terminal takes no orders from a file."""
    return ''.join(it if it.isprintable() and it.isascii() else ascii(it)[1:-1] for it in text)


def shown(text: str) -> str:
    """Returns a text for a message, cut where it is long."""
    return printable(text if len(text) <= LONGEST_SHOWN else text[:LONGEST_SHOWN] + '..')


def describe(mistake: Mistake) -> str:
    """Returns a mistake as `LINE:COLUMN: 'text': message`."""
    earlier = f' (line {mistake.earlier})' if mistake.earlier else ''
    return f"{mistake.line}:{mistake.column}: '{shown(mistake.text)}': {mistake.message}{earlier}"


class Form:
    """A form of a line, what it is (for example an event), what it does in a sentence, and the nodes that it takes."""

    def __init__(self, what: str, text: str, about: str, kinds: dict, roles: Optional[Dict[str, str]] = None) -> None:
        first, *places = text.split()
        self.first = first
        self.places = [kinds[it] if it in kinds else Literal(it) for it in places]
        self.keys = [it if it in kinds else None for it in places]
        self.text = ' '.join([first, *(it.name for it in self.places)])
        self.what = what
        self.about = about
        self.roles = roles or {}

    def has_rest(self) -> bool:
        """Returns whether the last place takes all that is left of a line."""
        return bool(self.places) and isinstance(self.places[-1], Rest)

    def values(self, line: Line) -> Dict[str, Word]:
        """Returns the words of a line by the names of their places."""
        return {key: word for key, word in zip(self.keys, line.words[1:]) if key}


def split_line(number: int, text: str) -> Line:
    """Returns a line with its words and their columns. Words are separated by one space each."""
    words, column = [], 1
    text = text if text.startswith(BACKUP) else text[:LONGEST_LINE]
    for word in text.split(' ', MOST_WORDS):
        words.append(Word(word, column))
        column += len(word) + 1
    return Line(number, text, words)


def read_texts(data: bytes) -> Iterator[Tuple[int, str]]:
    """Yields number and text of the lines that say something, decoded byte by byte. Empty lines and comments are
    passed over."""
    for number, line in enumerate(io.BytesIO(data), 1):
        text = line.decode('latin-1')
        text = text[: -2 if text.endswith('\r\n') else -1] if text.endswith('\n') else text
        if text and not text.startswith('#'):
            yield number, text


def read_lines(data: bytes) -> Iterator[Line]:
    """Yields the lines of a text that say something, with their words."""
    for number, text in read_texts(data):
        yield split_line(number, text)


def find_mistakes(reader: Any, data: bytes, first: int = 1, most: Optional[int] = None) -> List[Mistake]:
    """Returns the mistakes of a text from line `first` on, at most one a line, and no more than `most`.

    The reader only skims the lines before `first`, because tc took them."""
    found = []
    for number, text in read_texts(data):
        if number < first:
            reader.skim(number, text)
            continue
        fault = reader.fault(split_line(number, text))
        found += [fault] if fault else []
        if most is not None and len(found) >= most:
            return found
    end = None if found else reader.fault_of_end(data)
    return [end] if end else found


def number_of_end(data: bytes) -> int:
    """Returns the number of the line that would follow a text."""
    return data.count(b'\n') + (1 if data and not data.endswith(b'\n') else 0) + 1


def mistake(
    line: Any, column: int, text: str, message: str, cause: str = 'syntax', earlier: Optional[int] = None
) -> Mistake:
    """Returns a mistake in a line."""
    return Mistake(line.number, column, text, message, cause, earlier)


# What keeps a line from being words with one space between them. The first that is found is reported.
LAYOUTS = [
    (re.compile('^(\xff\xfe|\xfe\xff)'), 'the file is UTF-16; save it as ASCII or UTF-8 without a mark'),
    (re.compile('^\xef\xbb\xbf'), 'the file begins with a byte order mark; save it without one'),
    (re.compile('\x00'), 'a byte of value 0; the file is no text, or it is UTF-16'),
    (re.compile('\r'), 'a carriage return that is not the one before a line feed'),
    (re.compile('\t'), 'a tab; words are separated by one space'),
    (re.compile('\xc2\xa0'), 'a no-break space; words are separated by one plain space'),
    (re.compile('(?<! ) +(#|//|;)'), 'a comment is a line of its own that begins with #'),
    (re.compile('^(//|;|--|/\\*)'), 'a comment begins with #'),
    (re.compile('^ +'), 'a line begins with its first word, without spaces before it'),
    (re.compile('(?<! ) +$'), 'a line ends with its last word, without spaces after it'),
    (re.compile('  +'), 'words are separated by one space, and here are more'),
    (re.compile('[\x01-\x1f\x7f]'), 'a control character; a line has words and single spaces alone'),
    (re.compile('[\x80-\xff]+'), 'only a comment may have characters that are not ASCII'),
]


def fault_of_layout(line: Line, layouts: List[Tuple[re.Pattern, str]]) -> Optional[Mistake]:
    """Returns the mistake of the first layout that a line has, or none."""
    for pattern, message in layouts:
        found = pattern.search(line.text)
        if found:
            return mistake(line, found.start() + 1, found[0], message)
    return None


def fault_of_first(line: Line, firsts: dict, others: Dict[str, str]) -> Mistake:
    """Returns the mistake of a line whose first word no form has. `firsts` are the forms by their first words,
    `others` the first words of forms that people may mean by other words."""
    word = line.words[0].text
    meant = others.get(word.lower()) or near(word, firsts)
    if meant is None:
        kinds = list(dict.fromkeys(it.what for forms in firsts.values() for it in forms))
        return mistake(line, 1, line.text, f'no {" or ".join(kinds)} of this name')
    form = firsts[meant][0]
    return mistake(line, 1, line.text, f"no {form.what} of this name; did you mean '{form.text}'?")


def first_fault(form: Form, words: List[Word]) -> Optional[tuple]:
    """Returns the number of the first word that its place doesn't take, and why; or none and none."""
    faults = ((number, place.fault(word.text)) for number, (place, word) in enumerate(zip(form.places, words)))
    return next((it for it in faults if it[1]), (None, None))


def in_another_order(form: Form, words: List[Word]) -> str:
    """Returns two words in the order of the form, where they are in the other one; else nothing."""
    if len(words) != 2 or len(form.places) != 2 or first_fault(form, words[::-1])[1]:
        return ''
    return f"; did you mean '{form.first} {words[1].text} {words[0].text}'?"


def wanted_word(form: Form, number: int, forms: List[Form]) -> Optional[str]:
    """Returns what a place of certain words takes in any of some forms, or none where it takes other words too."""
    places = [it.places[number] for it in forms if len(it.places) > number]
    if not isinstance(form.places[number], Literal) or not all(isinstance(it, Literal) for it in places):
        return None
    words = sorted({it.word for it in places})
    return 'the word ' + ' or '.join(f"'{it}'" for it in words) + ' belongs here'


def fault_of_words(line: Line, form: Form, forms: List[Form]) -> Optional[Mistake]:
    """Returns the mistake of the words of a line in a form, or none: the first wrong word, else their number.
    `forms` are all that the line fits as well."""
    words = line.words[1:]
    number, fault = first_fault(form, words)
    if fault:
        fault = (wanted_word(form, number, forms) or fault) + in_another_order(form, words)
        return mistake(line, words[number].column, words[number].text, f"{fault} ('{form.text}')")
    if len(words) < len(form.places):
        place = form.places[len(words)]
        return mistake(
            line, len(line.text) + 1, line.text, f"{place.name} is missing: {place.wanted} ('{form.text}')"
        )
    if len(words) > len(form.places):
        left = words[len(form.places)]
        extra = line.text[left.column - 1 :]
        return mistake(
            line, left.column, extra, f"{counted(len(words) - len(form.places), 'word')} too many ('{form.text}')"
        )
    return None


def depth(line: Line, form: Form) -> Tuple[int, bool]:
    """Returns how many words of a line fit a form, and whether it has as many, to choose the form that was meant."""
    words = line.words[1:]
    number, _ = first_fault(form, words)
    return min(len(words), len(form.places)) if number is None else number, len(words) == len(form.places)


def with_rest(line: Line, form: Form) -> Line:
    """Returns a line whose last word is all that is left where the form ends with a rest of the line."""
    size = len(form.places)
    if not form.has_rest() or len(line.words) - 1 <= size:
        return line
    last = line.words[size]
    return line._replace(words=[*line.words[:size], Word(line.text[last.column - 1 :], last.column)])


def by_other(meant: Dict[str, str]) -> Dict[str, str]:
    """Returns what people write, each word with the one that it is, of the other words of each."""
    return {other: word for word, others in meant.items() for other in others.split()}


class Grammar:
    """The forms of the lines of a text."""

    def __init__(self, forms: List[Form], others: Dict[str, str]) -> None:
        self.forms = forms
        self.others = others
        self.firsts = collections.defaultdict(list)
        for form in forms:
            self.firsts[form.first].append(form)

    def read(self, line: Line) -> Optional[tuple]:
        """Returns the form of a line and its words, and none; or none, none and what is wrong with it."""
        forms = self.firsts.get(line.words[0].text)
        fault = self.fault_of_layout(forms, line)
        if fault:
            return None, line, fault
        if not forms:
            return None, line, fault_of_first(line, self.firsts, self.others)
        form = max(forms, key=lambda it: depth(line, it))
        line = with_rest(line, form)
        fault = fault_of_words(line, form, [it for it in forms if depth(line, it)[0] == depth(line, form)[0]])
        return (None, line, fault) if fault else (form, line, None)

    @staticmethod
    def fault_of_layout(forms: Optional[List[Form]], line: Line) -> Optional[Mistake]:
        """Returns what is wrong with the layout of a line. A text of any kind at its end needs be ASCII alone."""
        if not forms or not any(it.has_rest() for it in forms):
            return fault_of_layout(line, LAYOUTS)
        head = line._replace(text=' '.join(it.text for it in line.words[:2]))
        return fault_of_layout(head, LAYOUTS) or fault_of_layout(line, LAYOUTS[-2:])
