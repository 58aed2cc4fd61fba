"""Tests of explain: each event of the examples, the rows of the policy, and broken claims."""
import os
import re
import unittest
from unittest import mock

from gabzetu import TOP, program
from gabzetu.errors import Stop
from gabzetu.formats import fields, policy, sentences, stories
from gabzetu.test.support import Folder, example, needs_tc, run

SCHEDULES = [
    'application-key.sched',
    'forged-frames.sched',
    'join.sched',
    'removal.sched',
    'rollover.sched',
    'stops.sched',
]


def read(path):
    with open(path, encoding='utf-8') as file:
        return file.read()


def plain(page):
    """Returns a page with one space between its words."""
    return re.sub(r'\s+', ' ', page)


def played(name):
    """Returns the lines of the transcript of a schedule, and the words of its events."""
    data = read(example(name)).encode()
    text = program.run_tc(['play'], data).output.decode()
    return stories.read_text(text), [words for _, words in stories.schedule_events(data)]


class Policy(unittest.TestCase):
    """The rows are read from the page, and the words beside them fit it."""

    def test_each_event_and_command_has_a_row(self):
        self.assertEqual(
            sorted({event for event, _ in policy.events()}),
            sorted(
                'say knock rejoin child timer provision remove roll switch again ask share tell'.split()
            ),
        )
        self.assertEqual(len(policy.commands()), 12)
        for row in [*policy.events().values(), *policy.commands().values()]:
            self.assertTrue(all(row), row)

    def test_a_rule_is_found_by_event_and_role(self):
        self.assertEqual(policy.rule_of_event('timer', True)[0], ('timer', 'centre'))
        self.assertEqual(policy.rule_of_event('timer', False)[0], ('timer', 'router, device'))
        self.assertEqual(policy.rule_of_event('child', False)[0], ('child', 'router'))
        self.assertEqual(policy.rule_of_event('say', True)[0], ('say', 'all'))
        self.assertIsNone(policy.rule_of_event('boot', True))

    def test_switch_is_refused_in_an_unfinished_rollover_alone(self):
        refused, _ = policy.events()['switch', 'centre']
        self.assertEqual(
            policy.clause_of(refused, 'wrong-state'), "wrong-state while sending with a live device that isn't told"
        )

    def test_judging_has_both_layers(self):
        self.assertEqual(list(policy.judging()), ['nwk', 'aps'])
        self.assertEqual(policy.judging()['nwk']['bad-mic'], "it doesn't open")
        self.assertEqual(policy.judging()['aps']['stale'], 'as above, against that row')

    def test_notes(self):
        for note in (policy.DATA, *policy.NOTES.values()):
            self.assertIn(note, plain(policy.read_page()))

    def test_plain_sentences_are_of_reasons_that_there_are(self):
        for layer, reason in policy.PLAIN:
            self.assertIn(reason, policy.judging()[layer])

    def test_all_reasons_have_words(self):
        order = re.search(
            r'The reasons are tried in one order everywhere:\n1\. (.*);\n2\. (.*)\.', policy.read_page()
        )
        self.assertEqual(sorted(', '.join(order.groups()).split(', ')), sorted(policy.REASONS))

    def test_a_missing_page_is_named(self):
        policy.read_page.cache_clear()
        self.addCleanup(policy.read_page.cache_clear)
        with mock.patch.object(policy, 'TOP', '/nowhere'), self.assertRaises(Stop) as stopped:
            policy.read_page()
        self.assertIn('/nowhere/docs/POLICY.md: No such file or directory', stopped.exception.message)


@needs_tc
class Stories(unittest.TestCase):
    def test_every_line_has_a_sentence(self):
        for name in SCHEDULES:
            lines, _ = played(name)
            speaker = sentences.Speaker(stories.reader_of(lines))
            for line in lines:
                self.assertTrue(line.fields and speaker.say(line.fields), line.text)
        self.assertEqual([it for it in fields.TRANSCRIPT if not hasattr(sentences.Speaker, f'say_{it}')], [])

    def test_the_lines_tell_the_event(self):
        told = 0
        for name in SCHEDULES:
            lines, events = played(name)
            for group in stories.groups_of(lines):
                if group.event:
                    story = stories.Story(group, stories.centre_of(lines))
                    self.assertIn(story.event(), (None, events[group.event - 1][0]), group)
                    told += story.event() is not None
        self.assertGreater(told, 100)

    def test_a_rule_answers_each_accepted_command(self):
        lines, events = played('join.sched')
        titles = []
        for group in stories.groups_of(lines):
            if group.event:
                rule = stories.Story(group, 'c', events[group.event - 1]).rule()
                titles.append(rule and rule.title)
        self.assertNotIn(None, titles)
        self.assertIn('Transport-Key, link key with the centre', titles)


@needs_tc
class Explain(Folder):
    def test_an_accepted_command(self):
        ran = run('explain', example('join.transcript'), '6')
        self.assertEqual((ran.status, ran.said), (0, ''))
        self.assertIn('Event 6: a delivery to d\n', ran.output)
        self.assertIn('d has a new network key 00010203.., sequence 0\n', ran.output)
        self.assertIn('The rule: Transport-Key, network key (docs/POLICY.md, "Commands")\n', ran.output)

    def test_refusals_have_the_sentence_of_the_policy(self):
        ran = run('explain', example('removal.transcript'), '36')
        self.assertIn('Refused as wrong-state: wrong-state where no live row has the sequence\n', ran.output)
        ran = run('explain', example('removal.transcript'), '34')
        self.assertIn(
            'Refused as no-key: no usable row has its key sequence; of several the newest counts', ran.output
        )

    def test_the_schedule_tells_the_words(self):
        ran = run('explain', example('removal.transcript'), '22', '--schedule', example('removal.sched'))
        self.assertIn('Event 22: `child c d rejoin` (line 40 of the schedule)\n', ran.output)
        self.assertIn("Refused as not-member: not-member where the child isn't live\n", ran.output)
        ran = run('explain', example('removal.transcript'), '22', '--schedule', example('join.sched'))
        self.assertEqual(ran.status, 64)
        self.assertIn('it is the schedule of another run', ran.said)

    def test_the_schedule_tells_which_frame_was_heard(self):
        ran = run('explain', example('removal.transcript'), '36', '--schedule', example('removal.sched'))
        self.assertIn('\nFrame 13, sent by c in event 26: Switch-Key: 1\n', ran.output)

    def test_all_events_of_all_examples(self):
        for name in SCHEDULES:
            lines, events = played(name)
            path = self.write(name, '\n'.join(it.text for it in lines) + '\n')
            for event in range(0, len(events) + 1, 5):
                ran = run('explain', path, str(event), '--schedule', example(name))
                self.assertEqual((ran.status, ran.said), (0, ''))

    def test_an_event_that_a_disk_cuts(self):
        self.assertIn(
            'The changes and their commit are there', run('explain', example('stops.transcript'), '3').output
        )

    def test_terminals_take_no_orders_from_a_transcript(self):
        path = self.write('hostile', '1 send \x1b[31m 1 00\n1 state d \x1b]0;x\x07\nend 1 0 0 0 yes yes\n')
        ran = run('explain', path, '1')
        self.assertEqual(ran.status, 0)
        self.assertNotIn('\x1b', ran.output)

    def test_no_such_event(self):
        self.assertIn(
            'there is no event 18; the last one is 17', run('explain', example('join.transcript'), '18').said
        )
        for words in (['x'], ['6', '7'], ['broken', '30'], ['6', '--broken', '30', '4']):
            self.assertEqual(run('explain', example('join.transcript'), *words).status, 64)


class Others(Folder):
    """Inputs that are no transcript: it is said what they are, where that can be told."""

    def said_of(self, path):
        ran = run('explain', path, '1')
        self.assertEqual((ran.status, ran.output), (66, ''))
        return ran.said.partition(f'{path}: ')[2].strip()

    def test_what_an_input_is(self):
        wrong = 'line 1 is no line of a transcript'
        for path, wanted in {
            example('join.sched'): f'{wrong}; this is a schedule: `gabzetu play` writes its transcript',
            example('join.capture'): f'{wrong}; this is a text capture: `gabzetu inspect` reads it',
            example('admin.script'): f'{wrong}; this is a script: `gabzetu admin` carries it out',
            example('admin.backup'): f'{wrong}; this is a backup: `restore SKIP BACKUP` in a script takes it',
            os.path.join(TOP, 'tools/data/mixed.pcap'): f'{wrong}; this is a pcap file: `gabzetu open` reads it',
            os.path.join(TOP, 'README.md'): wrong,
            self.write('empty', ''): 'it is empty, and no transcript',
        }.items():
            self.assertEqual(self.said_of(path), wanted)


@needs_tc
class Broken(Folder):
    """Transcripts with one thing changed: tc says which line breaks which claim, and explain what it is about."""

    def explain(self, change):
        path = self.write('changed', ''.join(change(read(example('join.transcript')).splitlines(keepends=True))))
        verdict = run('audit', path).output.split()
        ran = run('explain', path)
        self.assertEqual((ran.status, ran.said), (0, ''))
        self.assertEqual(ran.output, run('explain', '--broken', *verdict[1:], path).output)
        self.assertEqual(ran.output, run('explain', path, *verdict).output)
        return verdict, ran.output

    def test_a_nonce_comes_twice(self):
        verdict, said = self.explain(
            lambda lines: lines[:-1] + [it for it in lines if it.startswith('16 seal c nwk')] + lines[-1:]
        )
        self.assertEqual(verdict[2], '1')
        self.assertIn('breaks claim 1: no nonce (source, counter, control) is used twice', said)

    def test_a_counter_is_accepted_twice(self):
        accept = '17 accept d nwk'
        verdict, said = self.explain(
            lambda lines: lines[:-1] + [it for it in lines if it.startswith(accept)] + lines[-1:]
        )
        self.assertEqual(verdict[2], '2')
        self.assertIn('breaks claim 2', said)

    def test_a_start_is_missing(self):
        verdict, said = self.explain(lambda lines: [it for it in lines if not it.startswith('6 start d')])
        self.assertEqual(verdict[1:], ['30', '4'])
        self.assertIn('  - the key is activated and never started: a start line of it is missing\n', said)
        self.assertIn('>    30  6 active d 000102030405060708090A0B0C0D0E0F\n', said)

    def test_the_counts_are_wrong(self):
        verdict, said = self.explain(lambda lines: lines[:-1] + ['end 17 18 13 0 yes yes\n'])
        self.assertEqual(verdict[2], '6')
        self.assertIn('  - it counts 18 seals, and there are 19\n', said)

    def test_the_end_line_is_missing(self):
        verdict, said = self.explain(lambda lines: lines[:-1])
        self.assertEqual(verdict[2], '6')
        self.assertIn('  - the last line is no end line\n', said)

    def test_nothing_is_broken(self):
        ran = run('explain', example('join.transcript'))
        self.assertEqual((ran.status, ran.output), (0, ''))
        self.assertIn('sound 19 13 locked: no claim is broken', ran.said)

    def test_no_transcript(self):
        ran = run('explain', example('join.sched'))
        self.assertEqual(ran.status, 5)
        self.assertIn('refused at line 1: syntax', ran.said)


if __name__ == '__main__':
    unittest.main()
