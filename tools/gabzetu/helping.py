"""What `gabzetu help` says of the lines of texts: made from the same tables that read them."""
import collections
import textwrap
from typing import Dict, List

from .formats import captures, fields, schedules, scripts
from .formats.causes import CAUSES, CLAIMS
from .scenarios import language
from .told import STATUSES

WIDTH = 100

# A line's words, and what it means.
Described = collections.namedtuple('Described', 'text about')

INTRODUCTIONS = {
    'schedule': (
        'A schedule declares nodes and what they hold, and then says what happens. Words are separated by one '
        'space, and a comment is a line that begins with #. All declarations come before the first event. '
        'Addresses, keys and bytes are hexadecimal digits, numbers are decimal; HEX is - for no bytes. A frame that '
        'no line delivers is lost.'
    ),
    'capture': (
        'A text capture has what is known and what was heard, a line each. Words are separated by one space, and a '
        'comment is a line that begins with #. `gabzetu open` reads the files of sniffers.'
    ),
    'script': (
        "A script for `gabzetu admin` names the centre and its peers, and then has commands on the centre's store. "
        'docs/ADMIN.md says what is promised of it.'
    ),
    'scenario': (
        'A scenario is a schedule without frame numbers. Each line of a schedule (gabzetu help schedule) is one of '
        'a scenario too, and stays as it is. A step that is refused in the middle of a line ends with a message; '
        '`deliver last`, `say`, `send` and the lines of schedules may be refused. docs/SCENARIOS.md has examples.'
    ),
    'transcript': (
        'A transcript has what happened, one fact a line. EVENT is the number of the event: from 1, and 0 for the '
        'start. The lines of an event come in this order: what changes and its commit, what is accepted, a refusal, '
        'what is sealed, the frame that is sent. SENDER, PARTNER, DEVICE, FIRST and SECOND are EUIs.'
    ),
}

# How `help causes` names the kinds of inputs.
TITLES = {
    'schedule': 'schedule',
    'capture': 'text capture',
    'script': 'script of admin',
    'pcap': 'capture file',
    'transcript': 'transcript',
    'code': 'install code; X and Y are the words after the cause',
}
CAUSES_TOPIC = 'causes'
TOPICS = sorted([*INTRODUCTIONS, CAUSES_TOPIC])


def transcript_lines() -> List[Described]:
    """Returns the lines of a transcript: the forms of each kind, and what it means. The end line alone has no event."""
    found = []
    for kind, about in fields.MEANINGS.items():
        forms = [f'EVENT {kind} {fields.shown(it)}' for it in fields.TRANSCRIPT.get(kind, [])]
        found.append(Described('\n  '.join(forms or [f'{kind} {fields.shown(fields.END)}']), about))
    return found


SECTIONS: Dict[str, List[tuple]] = {
    'schedule': [('Declarations', schedules.DECLARATIONS), ('Events', schedules.EVENTS)],
    'capture': [('Lines', captures.FORMS)],
    'script': [('Lines', scripts.FORMS)],
    'scenario': [('Declarations', language.DECLARATIONS), ('Steps', language.STEPS)],
    'transcript': [('Lines', transcript_lines())],
}

MORE = {
    'schedule': (
        'The exact rules: docs/FORMATS.md. Who answers what: docs/POLICY.md. What is wrong with a file: gabzetu '
        'check FILE.'
    ),
    'capture': 'The exact rules: docs/FORMATS.md. What is wrong with a file: gabzetu check FILE.',
    'script': 'What is wrong with a file: gabzetu check FILE.',
    'scenario': 'The schedule of a scenario: gabzetu scenario FILE. Its options: gabzetu scenario --help.',
    'transcript': (
        'The exact rules: docs/FORMATS.md. What happened in an event: gabzetu explain TRANSCRIPT EVENT. The claims '
        'that `gabzetu audit` judges: gabzetu help causes.'
    ),
}


def wrapped(text: str, indent: str = '') -> str:
    """Returns a text in lines of the width of help."""
    return textwrap.fill(text, WIDTH, initial_indent=indent, subsequent_indent=indent)


def describe_forms(title: str, forms: list) -> str:
    """Returns the forms of some lines, each with its sentence below it."""
    lines = [f'{title}:']
    for form in forms:
        lines += [f'  {form.text}', wrapped(form.about, '      ')]
    return '\n'.join(lines)


def describe_sentences(title: str, sentences: Dict[str, str]) -> str:
    """Returns words such as causes, each with its sentence below it."""
    lines = [f'{title}:']
    for word, sentence in sentences.items():
        lines += [f'  {word}', wrapped(sentence.replace('{0}', 'X').replace('{1}', 'Y'), '      ')]
    return '\n'.join(lines)


def describe_causes() -> str:
    """Returns the text of `gabzetu help causes`: what each refusal, each broken claim and each fault of tc means."""
    refusals = (describe_sentences(f'refused LINE CAUSE ({TITLES[kind]})', CAUSES[kind]) for kind in TITLES)
    claims = describe_sentences('broken LINE CLAIM', {str(number): it for number, it in CLAIMS.items()})
    statuses = describe_sentences('Other statuses of tc', {str(status): it for status, it in STATUSES.items()})
    return '\n\n'.join([*refusals, claims, statuses]) + '\n'


def describe_topic(topic: str) -> str:
    """Returns the text of `gabzetu help` on the lines of a kind of text, or on causes."""
    if topic == CAUSES_TOPIC:
        return describe_causes()
    parts = [wrapped(INTRODUCTIONS[topic]), *(describe_forms(*it) for it in SECTIONS[topic]), wrapped(MORE[topic])]
    return '\n\n'.join(parts) + '\n'
