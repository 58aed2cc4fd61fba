"""Tests of explore: pages that a browser opens, and what is in them."""
import contextlib
import io
import json
import os
import re
import shutil
import time
import unittest

from gabzetu import TOP, cli, program
from gabzetu.errors import Stop
from gabzetu.test import browser, records
from gabzetu.test.support import Folder, example, needs_tc

NAMES = {'r': '<img/src=x/onerror=alert(1)>', 'd': '<script>document.title="taken"</script>'}
REPORT = os.path.join(TOP, 'tools', 'data', 'join.report')

# Seconds for a page of 3,000 events: some 5 are meant, and a slow machine may take longer.
LONGEST = 60

# Presses keys and fills filters as a user does, and notes after each what the page shows.
USER = """
const notes = [];
const wait = () => new Promise((done) => setTimeout(done, 50));
const press = async (key) => {
  document.body.dispatchEvent(new KeyboardEvent('keydown', { key, bubbles: true }));
  await wait();
  notes.push(`${key} ${location.hash} ${document.activeElement.placeholder || ''}`.trim());
};
const fill = (name, value) => {
  const label = [...document.querySelectorAll('#filters label')].find((it) => it.textContent.startsWith(name));
  const field = label.querySelector('input, select');
  field.value = value;
  field.dispatchEvent(new Event(field.tagName === 'SELECT' ? 'change' : 'input'));
  notes.push(`${name} ${value}: ${document.getElementById('count').textContent}`);
  field.value = '';
};
(async () => {
  for (const key of ['j', 'j', 'k', 'j', 'j']) await press(key);
  fill('show', 'lost');
  fill('show', 'keys');
  fill('frame', '8');
  fill('text', 'verify-key');
  fill('key', 'A0A1A2A3A4A5A6A7A8A9AAABACADAEAF');
  fill('node', '1');
  await press('/');
  const list = document.getElementById('rows');
  for (const key of ['ArrowDown', 'Home', 'End']) {
    list.focus();
    list.dispatchEvent(new KeyboardEvent('keydown', { key, bubbles: true }));
    await wait();
    const row = document.getElementById(list.getAttribute('aria-activedescendant'));
    notes.push(`${key} ${location.hash} ${row.getAttribute('role')} ${row.getAttribute('aria-selected')}`);
  }
  const tab = document.getElementById('tab-event');
  tab.focus();
  tab.dispatchEvent(new KeyboardEvent('keydown', { key: 'ArrowRight', bubbles: true }));
  await wait();
  const chosen = document.querySelector('[role=tab][aria-selected=true]');
  notes.push(`tab ${chosen.id} ${document.activeElement.id} ${document.getElementById('panel').getAttribute('role')}`);
  document.documentElement.dataset.notes = JSON.stringify(notes);
})();
"""
SHOWN = [
    'j #e1',
    'j #e2',
    'k #e1',
    'j #e2',
    'j #e3',
    'show lost: 3 of 17 events',
    'show keys: 6 of 17 events',
    'frame 8: 2 of 17 events',
    'text verify-key: 2 of 17 events',
    'key A0A1A2A3A4A5A6A7A8A9AAABACADAEAF: 6 of 17 events',
    'node 1: 3 of 17 events',
    '/ #e3 word, address, digits (/)',
    'ArrowDown #e4 option true',
    'Home #e3 option true',
    'End #e5 option true',
    'tab tab-state tab-state tabpanel',
]


def play(schedule):
    return program.run_tc(['play'], schedule.encode()).output.decode()


def read(path):
    with open(path, encoding='ascii') as file:
        return file.read()


class Explored(Folder):
    """A test that makes pages."""

    def explore(self, *words):
        """Makes a page and returns its path."""
        path = self.path('page.html')
        with contextlib.redirect_stderr(io.StringIO()):
            self.assertEqual(cli.run(['explore', *words[:1], path, *words[1:]]), 0)
        return path


class Pages(Explored):
    """What a page has before any browser opens it."""

    def test_nothing_is_fetched(self):
        with open(self.explore(example('join.transcript')), encoding='utf-8') as file:
            page = file.read()
        self.assertIn("default-src 'none'", page)
        self.assertIn('<meta name="viewport"', page)
        self.assertIn('role="listbox" tabindex="0"', page)
        self.assertIn(':focus-visible', page)
        self.assertNotRegex(page, r'https?:|src=|@import|url\(')

    def test_wrong_schedules_are_refused(self):
        for name in ('removal.sched', 'rollover.sched', 'two-frames.sched', 'join.transcript'):
            with self.assertRaisesRegex(Stop, 'give the schedule that was played'):
                self.explore(example('join.transcript'), '--schedule', example(name))
        self.assertFalse(os.path.exists(self.path('page.html')))

    def test_other_inputs_are_refused(self):
        with self.assertRaisesRegex(Stop, 'line 1 is no line of a transcript'):
            self.explore(example('join.sched'))
        with self.assertRaisesRegex(Stop, 'give the capture of which the report was made'):
            self.explore(REPORT, '--capture', os.path.join(TOP, 'tools/data/sniffers.pcap'))


@unittest.skipUnless(browser.find_browser(), 'chromium is missing')
class Browsed(Explored):
    """Pages as a browser shows them. It must say nothing of them: no mistake, nothing that the policy forbade."""

    def open(self, mark, *words):
        page, said = browser.open_page(self.explore(*words), mark)
        self.assertEqual(said, [])
        return page

    def test_join(self):
        page = self.open('#e12', example('join.transcript'), '--schedule', example('join.sched'))
        self.assertEqual(len(page.of_class('row')), 17)
        self.assertEqual(page.of_id('count'), '17 of 17 events')
        side = page.of_id('panel')
        for text in (
            'Event 12 of d',
            'deliver 8 d',
            'Frame 8: Transport-Key, link key A0A1A2A3..',
            'Nonce of the APS layer, 13 bytes',
        ):
            self.assertIn(text, side)
        self.assertEqual(sum('lost' in it[1].get('class', '').split() for it in page.elements), 3)
        self.assertEqual(page.tags('title')[0][2], 'join.transcript')

    def test_keyboard_and_filters(self):
        path = self.explore(example('join.transcript'), '--schedule', example('join.sched'))
        browser.add_script(path, USER)
        page, said = browser.open_page(path)
        self.assertEqual((json.loads(page.tags('html')[0][1]['data-notes']), said), (SHOWN, []))

    @needs_tc
    def test_verdict(self):
        self.assertIn('tc audit: sound 19 13 locked', self.open('', example('join.transcript')).of_id('about'))
        broken = re.sub('^6 start d.*\n', '', read(example('join.transcript')), flags=re.MULTILINE)
        about = self.open('', self.write('broken.transcript', broken)).of_id('about')
        self.assertIn('tc audit: broken 30 4: line 30 breaks claim 4', about)
        self.assertIn('event 6', about)

    @needs_tc
    def test_rollover(self):
        path = self.write('rollover.transcript', play(read(example('rollover.sched'))))
        page = self.open('#keys', path, '--schedule', example('rollover.sched'))
        self.assertIn('network key', page.of_id('panel'))
        self.assertTrue(any('rollover: sending' in it for it in page.of_class('keys')))

    @needs_tc
    def test_three_thousand_events(self):
        schedule = program.run_tc(['make', '60']).output.decode()
        path = self.write('made.transcript', play(schedule))
        begun = time.process_time()
        self.explore(path, '--schedule', self.write('made.sched', schedule))
        made = time.process_time() - begun
        page, said = browser.open_page(self.path('page.html'), '#e2500')
        self.assertEqual((said, page.of_id('count')), ([], '2911 of 2911 events'))
        drawn = re.search(r'in (\d+) ms', page.tags('html')[0][1]['data-drawn'])
        if os.getloadavg()[0] < os.cpu_count():  # else the time says more of the machine's other work
            self.assertLess(made + int(drawn.group(1)) / 1000, LONGEST)
        self.assertLess(len(page.of_class('row')), 400)
        self.assertTrue(any(it.startswith('2500') for it in page.of_class('chosen')))

    def test_report(self):
        page = self.open('#p3', REPORT, '--capture', example('join.capture'))
        self.assertEqual(len(page.of_class('row')), 12)
        self.assertIn('Found in itkey 2 00010203.., in round 1', page.of_id('panel'))
        page = self.open('#keys', REPORT)
        self.assertIn('key 3 A0A1A2A3.., came out of packet 6, inside what key 2 opened, round 2', page.of_id('panel'))

    @unittest.skipUnless(shutil.which('pdftotext'), 'poppler-utils is missing')
    def test_printed(self):
        text = read(example('join.transcript')).rpartition('end ')[0]
        text += ''.join(f'{it} boot d\n' for it in range(18, 3030)) + 'end 3029 19 13 0 yes yes\n'
        path = self.write('long.transcript', text)
        sheets = browser.print_page(self.explore(path))
        self.assertGreater(len(sheets), 20)
        for sheet in sheets:
            self.assertIn('device 1A2B', sheet)
        self.assertIn('29 further rows are not printed', sheets[-1])
        printed = [line.split()[0] for sheet in sheets for line in sheet.splitlines() if line.strip()]
        self.assertEqual([printed.count(it) for it in ('18', '1500', '3000', '3001')], [1, 1, 1, 0])

    def test_hostile_names(self):
        text = re.sub(r'(?m)(?<= )[rd](?= |$)', lambda found: NAMES[found.group()], read(example('join.transcript')))
        page = self.open('#e6', self.write('<script>.transcript', text))
        self.assertEqual([it[2] for it in page.tags('title')], ['<script>.transcript'])
        self.assertEqual((len(page.tags('script')), len(page.tags('img'))), (2, 0))
        self.assertIn(f'Event 6 of {NAMES["d"]}', page.of_id('panel'))

    def state_rows(self, page):
        """Returns the rows of the State tab by node and table, by the first head of the table."""
        found = {}
        for table in page.tags('table'):
            heads = [it[2] for it in page.tags('th') if any(up is table for up in it[3])]
            rows = [[cell.replace(' \u25c2', '') for cell in row] for row in page.rows_in(table) if row]
            node = next(it for it in table[3] if it[0] == 'details')[2].split(' ')[0]
            found[node, ' '.join(heads[:2])] = rows
        return found

    def check_record(self, node, rows, record, names):
        """Compares what the page shows of a node with its record."""
        head = rows[node, 'state power'][0]
        self.assertEqual(head[3], str(record['aps_limit']))
        if node != 'c':
            self.assertEqual(head[0], record['state'])
        nets = [
            [it[0], it[1], 'live' in it[2], 'active' in it[2], it[4]] for it in rows.get((node, 'key sequence'), [])
        ]
        self.assertEqual(
            nets,
            [
                [
                    it['key'][:8] + '..',
                    str(it['sequence']),
                    bool(it['flags'] & 1),
                    place == record['active'],
                    str(it['limit']),
                ]
                for place, it in enumerate(record['nets'])
            ],
        )
        floors = [[it[0], it[1], it[3]] for it in rows.get((node, 'key sender'), [])]
        self.assertEqual(
            floors,
            [
                [it['key'][:8] + '..', names[sender], str(floor)]
                for it in record['nets']
                if it['flags'] & 1
                for sender, floor in it['floors']
            ],
        )
        links = [
            [it[0], it[1], it[2].split(',')[0], 'told' in it[2], it[4]] for it in rows.get((node, 'partner key'), [])
        ]
        self.assertEqual(
            links,
            [
                [
                    names[it['partner']],
                    it['key'][:8] + '..',
                    it['attribute'] if it['flags'] & 1 else 'dropped',
                    bool(it['flags'] & 4),
                    str(it['floor']),
                ]
                for it in record['links']
            ],
        )
        self.assertEqual(len(rows.get((node, 'first second'), [])), len(record['pairs']))

    @needs_tc
    def test_states_are_the_records(self):
        for name in ('removal', 'application-key', 'rollover', 'stops'):
            schedule = read(example(f'{name}.sched'))
            nodes = re.findall(r'(?m)^node (\S+) \S+ (\S+)', schedule)
            text = play(schedule + '\n' + ''.join(f'dump {node}\n' for node, _ in nodes))
            last = re.findall(r'(?m)^(\d+) dump', text)[-1]
            rows = self.state_rows(self.open(f'#e{last}-state', self.write(f'{name}.transcript', text)))
            for node, record in re.findall(r'(?m)^\d+ dump (\S+) (\S+)', text):
                with self.subTest(name=name, node=node):
                    self.check_record(
                        node, rows, records.read_record(bytes.fromhex(record)), {eui: it for it, eui in nodes}
                    )


if __name__ == '__main__':
    unittest.main()
