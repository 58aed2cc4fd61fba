"""Runs for the tests: the transcript of a schedule by `tc play`, and a log of sessions whose answers are the centre's
part of it."""
import subprocess

from hub import tables
from hub.programs import find


def play(schedule):
    """Returns the lines of the transcript of a schedule."""
    ran = subprocess.run([find('tc'), 'play'], input=schedule.encode(), stdout=subprocess.PIPE, check=True)
    return ran.stdout.decode().splitlines()


def audit(text):
    """Returns what `tc audit` says about a transcript."""
    how = {'input': text.encode(), 'stdout': subprocess.PIPE, 'stderr': subprocess.DEVNULL, 'check': False}
    return subprocess.run([find('tc'), 'audit'], **how).stdout.decode().strip()


def events_of(schedule):
    """Returns the words of the events of a schedule by their numbers."""
    declarations = ('node', 'code', 'netkey', 'counter', 'draw', '#')
    lines = [line for line in schedule.splitlines() if line and not line.startswith(declarations)]
    return dict(enumerate((line.split(' ') for line in lines), 1))


def groups_of(transcript):
    """Returns the lines of each event by its number, without the number."""
    groups = {}
    for line in transcript[:-1]:
        number, _, text = line.partition(' ')
        groups.setdefault(int(number), []).append(text)
    return groups


def is_of(lines, name):
    """Returns whether the lines of an event are those of a node."""
    return any(words[1] == name and words[0] != 'given' for words in (line.split(' ') for line in lines))


def first_backup(transcript, name):
    """Returns the tables of a centre that has its given network key and nothing else."""
    words = next(line.split(' ') for line in transcript if line.startswith(f'0 given {name} net '))
    net = {'floors': [], 'key': words[4], 'limit': 0, 'live': True, 'sequence': int(words[5]), 'started': True}
    return {'active': 0, 'aps': 0, 'links': [], 'nets': [net], 'nwk': 0, 'pairs': [], 'roll': 'idle', 'version': 3}


def header_of(transcript):
    """Returns the header lines of a session for the nodes of a transcript, and the name of the centre."""
    rows = [line.split(' ')[2:] for line in transcript if line.startswith('0 node ')]
    centre = next(row for row in rows if row[1] == 'centre')
    peers = [f"peer {' '.join(row[:4])}" for row in rows if row is not centre]
    return [f'centre {centre[0]} {centre[2]} {centre[4]} {centre[5]}', *peers, 'open'], centre[0]


class HostLog:
    """A log that a host would have written if its centre had been that of a run."""

    def __init__(self, schedule):
        self.transcript = play(schedule)
        self.header, self.name = header_of(self.transcript)
        self.tables, self.lines = first_backup(self.transcript, self.name), []
        self.frames = {int(words[3]): words[4] for words in map(str.split, self.transcript) if words[1] == 'send'}
        self.begin()
        for number, words in events_of(schedule).items():
            self.happen(words, groups_of(self.transcript).get(number, []))

    def ask(self, line, *answer):
        """Writes a line and its answer."""
        self.count += 1
        self.lines += [f'> {line}', *(f'< {it}' for it in answer), f'< ok {self.count}']

    def begin(self):
        """Writes the beginning of a session."""
        self.lines.append('start')
        self.count = 0
        for line in self.header:
            self.ask(line)
        self.ask('backup', str(self.tables).replace("'", '"').replace('True', 'true').replace('False', 'false'))

    def happen(self, words, lines):
        """Writes an event of the centre, and nothing for another node."""
        if words == ['boot', self.name]:
            self.begin()
        elif words != ['reset', self.name] and is_of(lines, self.name) and not lines[-1].endswith('no-frame'):
            self.tables = tables.changed(self.tables, lines)
            line = f'deliver {self.frames[int(words[1])]} -' if words[0] == 'deliver' else ' '.join(words)
            self.ask(line, *(f'7 {it}' for it in lines))
