"""The man page, made from the tree of commands."""
from typing import Any

from . import read_version
from .errors import MISSING, UNEXPECTED, UNREADABLE, UNWRITABLE, WRONG_INPUT, WRONG_USE
from .helping import INTRODUCTIONS, SECTIONS
from .tree import options_of, places_of, read_tree

STATUSES = [
    ('0', 'all is well'),
    ('2', 'tc does not take these words'),
    ('3', 'the input could not be read'),
    ('4', 'the output could not be written'),
    ('5', 'the input is refused, with a line and a cause'),
    ('6', 'tc is out of memory'),
    ('7', 'the store could not be read or written'),
    ('8', 'there is no store in the file'),
    ('9', 'the input is too long'),
    ('10', 'a line breaks a claim of the audit'),
    ('11', 'the store holds no record of a centre'),
    ('12', 'the store is worn'),
    (str(WRONG_USE), 'gabzetu does not take these words'),
    (str(WRONG_INPUT), 'an input that only gabzetu reads is wrong'),
    (str(UNREADABLE), 'a file could not be read'),
    (str(MISSING), 'tc or a library is missing'),
    (str(UNEXPECTED), 'gabzetu did not foresee this input'),
    (str(UNWRITABLE), 'a file could not be written'),
]


def escaped(text: str) -> str:
    """Returns a text as roff reads it: no line begins with a control character."""
    lines = text.replace('\\', '\\e').replace('-', '\\-').split('\n')
    return '\n'.join('\\&' + it if it[:1] in (".", "'") else it for it in lines)


def paragraphs(text: str) -> str:
    """Returns a description of several paragraphs. One whose lines are indented keeps its lines."""
    return '\n.PP\n'.join(paragraph(it.strip('\n')) for it in text.split('\n\n'))


def paragraph(text: str) -> str:
    """Returns a paragraph, or a block of lines that stay as they are if each is indented."""
    if all(it.startswith('  ') for it in text.split('\n')):
        return f'.nf\n{escaped(text)}\n.fi'
    return escaped(text.replace('\n', ' '))


def tagged(tag: str, text: str) -> str:
    """Returns a paragraph with a tag."""
    return f'.TP\n.B {escaped(tag)}\n{escaped(text)}\n'


def tag_of(argument: Any) -> str:
    """Returns how the man page names an argument."""
    if not argument.names:
        return argument.value
    return ', '.join(name + (f' {argument.value}' if argument.value else '') for name in argument.names)


def rows_of(command: Any) -> str:
    """Returns the paragraphs on the words of a command."""
    arguments = places_of(command) + [it for it in options_of(command) if '--help' not in it.names]
    return ''.join(tagged(tag_of(it), it.help.replace('%%', '%')) for it in arguments)


def describe_command(command: Any) -> str:
    """Returns the section of a command."""
    return f'.SS {escaped(command.usage)}\n{paragraphs(command.description)}\n{rows_of(command)}'


def write_page(command: Any) -> str:
    """Returns the man page gabzetu-NAME.1 of a command."""
    name = f'gabzetu-{command.name}'
    head = f'.TH {name.upper()} 1 "" "gabzetu {read_version()}" "User Commands"\n'
    return ''.join(
        [
            f'.\\" written by `gabzetu man`\n{head}',
            f'.SH NAME\n{escaped(name)} \\- {escaped(command.summary)}\n',
            f'.SH SYNOPSIS\n.B {escaped(command.usage)}\n',
            f'.SH DESCRIPTION\n{paragraphs(command.description)}\n',
            f'.SH OPTIONS\n{rows_of(command)}',
            '.SH EXIT STATUS\nSee\n.BR gabzetu (1).\n.SH SEE ALSO\n.BR gabzetu (1)\n',
        ]
    )


def write_pages() -> dict:
    """Returns all man pages by their names: that of the front end, and one for each command."""
    pages = {f'gabzetu-{it.name}.1': write_page(it) for it in read_tree()[1]}
    return {'gabzetu.1': write_manual(), **pages}


def describe_texts(topic: str) -> str:
    """Returns the section on the lines of schedules, captures, scripts or scenarios."""
    rows = ''.join(tagged(form.text, form.about) for _, forms in SECTIONS[topic] for form in forms)
    return f'.SH LINES OF A {topic.upper()}\n{escaped(INTRODUCTIONS[topic])}\n{rows}'


def write_manual() -> str:
    """Returns the man page gabzetu.1."""
    top, commands = read_tree()
    return ''.join(
        [
            f'.\\" written by `gabzetu man`\n.TH GABZETU 1 "" "gabzetu {read_version()}" "User Commands"\n',
            '.SH NAME\ngabzetu \\- front end of the proved Zigbee trust centre program tc\n',
            '.SH SYNOPSIS\n.B gabzetu\n.I COMMAND\n.RI [ WORD ..]\n.br\n.B gabzetu \\-\\-version\n',
            f'.SH DESCRIPTION\n{paragraphs(top.description)}\nA FILE of a command is \\- for standard input.\n',
            '.SH COMMANDS\n',
            *map(describe_command, commands),
            *map(describe_texts, INTRODUCTIONS),
            '.SH EXIT STATUS\n',
            *(tagged(*it) for it in STATUSES),
            '.SH ENVIRONMENT\n',
            tagged(
                'GABZETU_TC',
                'the path of the program tc. Without it it is lib/gabzetu/tc of this installation, else '
                '/usr/lib/gabzetu/tc, else the one that ./build built in a clone.',
            ),
            '.SH SEE ALSO\ndocs/TUTORIAL.md, docs/FORMATS.md, docs/POLICY.md, docs/ADMIN.md, docs/SCENARIOS.md\n',
        ]
    )
