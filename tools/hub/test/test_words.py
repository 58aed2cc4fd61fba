"""Tests of the lists of words in the tools: each has exactly the words of docs/FORMATS.md and docs/ADMIN.md.

A word that is missing in a list is named. So a new line of a session or command of `admin` can't be forgotten."""
import importlib.machinery
import importlib.util
import re
import unittest

from gabzetu.formats import fields, scripts
from hub import log, words
from hub.programs import TOP


def read(page):
    with open(f'{TOP}/docs/{page}', encoding='utf-8') as it:
        return it.read()


def cells(text):
    """Returns the cells of each row of the tables of a text."""
    return [re.split(r'(?<!\\)\|', line) for line in re.findall(r'^\|(.*)\|$', text, re.M)]


def rows(page, heading):
    """Returns the cells of the rows of a page's tables below a heading, up to the next heading."""
    text = read(page)
    return cells(re.split(r'^#+ ', text[text.index(f'{heading}\n') + len(heading) :], maxsplit=1, flags=re.M)[0])


def table(page, head):
    """Returns the cells of the rows of the table of a page whose first head is that word."""
    return cells(read(page).partition(f'| {head} |')[2].partition('\n\n')[0])


def spans(cell):
    """Returns the first words in lower case of each piece of code in a cell, without the number of an event."""
    found = [re.match(r'(?:0 )?([a-z]+(?: [a-z]+)*)', it) for it in re.findall(r'`([^`]*)`', cell)]
    return [it[1] for it in found if it]


def first_words(page, heading):
    """Returns the first words of the lines that the tables below a heading describe, in their first cells."""
    return {it.split(' ')[0] for row in rows(page, heading) for it in spans(row[0])}


def tool(name):
    """Returns a tool as a module."""
    loader = importlib.machinery.SourceFileLoader(name.replace('-', '_'), f'{TOP}/tools/{name}')
    module = importlib.util.module_from_spec(importlib.util.spec_from_loader(loader.name, loader))
    loader.exec_module(module)
    return module


class Words(unittest.TestCase):
    def same(self, name, found, wanted):
        """Checks a list against the words of a page."""
        self.assertTrue(wanted)
        self.assertEqual(set(wanted) - set(found), set(), f'{name} lacks these')
        self.assertEqual(set(found) - set(wanted), set(), f'{name} has these, and the page does not')

    def test_lines_of_a_session(self):
        known = {*words.HEADER, *words.QUESTIONS, *words.EVENTS}
        self.same('tools/hub/words.py', known, first_words('FORMATS.md', '## Sessions'))

    def test_ends_of_a_session(self):
        ends = [it for row in rows('FORMATS.md', '### How a session ends') for it in spans(row[1])]
        self.same('ENDS of tools/hub/words.py', words.ENDS, ends)

    def test_commands_of_admin(self):
        commands = {it.split(' ')[0] for row in table('ADMIN.md', 'Command') for it in spans(row[0])}
        self.same('COMMANDS of tools/hub/words.py', words.COMMANDS, commands)
        known = {it.first for it in scripts.FORMS} - {'centre', 'peer'}
        self.same('FORMS of tools/gabzetu/formats/scripts.py', known, commands)

    def test_lines_of_a_transcript(self):
        wanted = first_words('FORMATS.md', '## Transcripts') - {'end'}
        self.same('TRANSCRIPT of tools/gabzetu/formats/fields.py', fields.TRANSCRIPT, wanted)

    def test_changes_of_events(self):
        changes = {
            it.split(' ')[0]
            for row in rows('FORMATS.md', '## Transcripts')
            if row[1].strip().startswith('change')
            for it in spans(row[0])
        }
        # no event of the centre changes the state of a router or device
        found = {it for may in words.EVENTS.values() for it in may}
        self.same('EVENTS of tools/hub/words.py', found, changes - {'state'})

    def test_events_of_the_tools(self):
        drive, kill, library = tool('drive-centre'), tool('kill-centre'), tool('drive-library')
        self.same('tools/drive-centre', {*drive.SAME, *drive.OF_ANY_NODE, 'roll', 'deliver'}, words.EVENTS)
        self.same('EACH_KIND of tools/kill-centre', kill.EACH_KIND, words.EVENTS)
        steps = library.Steps(library.random.Random(1))
        # for these words the whole line is the word
        alone = {'timer', 'switch', *words.QUESTIONS}
        for word in {*words.EVENTS, *words.COMMANDS} - alone:
            self.assertNotEqual(steps.line(word), word, f'tools/drive-library has no line {word}')

    def test_an_unknown_line_is_no_event(self):
        lines = ['start', '> open', '< ok 1', '> count', '< 3', '< ok 2']
        with self.assertRaisesRegex(log.BadLog, 'line 4: `count` is no line'):
            log.read(lines)
        self.assertEqual(len(log.read([*lines[:4], '< refuse 2 syntax'])), 1)


if __name__ == '__main__':
    unittest.main()
