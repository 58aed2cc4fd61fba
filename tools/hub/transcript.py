"""Makes the transcript of a centre's sessions on one store (docs/FORMATS.md), which `tc audit` judges."""
from typing import Any, Dict, List

from hub import tables
from hub.log import BadLog

BLOCKS_OF_OTHERS = '1 1'


def nodes_of(sessions: list) -> Dict[str, List[str]]:
    """Returns the words of the node lines by name, the centre first. Later sessions may declare more peers."""
    found = {}
    for session in sessions:
        centre = session.header('centre')[-1]
        rows = [[centre[1], 'centre', centre[2].upper(), '0000', *centre[3:]]]
        peers = session.header('peer')
        rows += [[*it[1:3], it[3].upper(), it[4].upper(), *BLOCKS_OF_OTHERS.split()] for it in peers]
        for row in rows:
            if found.setdefault(row[0], row) != row:
                raise BadLog(f"{row[0]} is declared as `{' '.join(row)}`, and before as `{' '.join(found[row[0]])}`")
    if sum(row[1] == 'centre' for row in found.values()) != 1:
        raise BadLog('the sessions are not of one centre')
    return found


def in_use(backup: dict) -> dict:
    """Returns the tables of a backup without the rows that were dropped."""
    nets, links = ([row for row in backup[part] if row['live']] for part in ('nets', 'links'))
    return {**backup, 'active': nets.index(tables.active_net(backup)), 'links': links, 'nets': nets}


def first_tables(backup: dict) -> dict:
    """Returns the tables of a centre with the active network key and the limits of a backup, and nothing else."""
    net = {**tables.active_net(backup), 'floors': []}
    return {**backup, 'active': 0, 'links': [], 'nets': [net], 'nwk': net['limit'], 'pairs': [], 'roll': 'idle'}


class Transcript:
    """A transcript that grows: its lines, the tables of the centre, and the counts of events and frames."""

    def __init__(self, nodes: Dict[str, List[str]]) -> None:
        self.nodes = nodes
        self.name, _, _, _, block, _ = next(row for row in nodes.values() if row[1] == 'centre')
        self.block = int(block)
        self.lines = [f"0 node {' '.join(row)}" for row in nodes.values()]
        self.tables: Dict[str, Any] = {}
        self.event, self.frame, self.notes = 0, 0, []

    def put(self, *lines: str) -> None:
        """Writes the lines of the next event, without its number."""
        self.event += 1
        self.lines += [f'{self.event} {line}' for line in lines]

    def begin(self, text: str) -> None:
        """Writes the lines of the start: the network key, and the counters that aren't 0."""
        backup = tables.read(text)
        if tables.active_net(backup) is None:
            raise BadLog('the store has no active network key')
        self.tables = first_tables(backup)
        net = tables.active_net(self.tables)
        self.lines.append(f"0 given {self.name} net {net['key']} {net['sequence']}")
        self.lines += [f'0 counter {self.name} nwk {net["limit"]}'] if net['limit'] else []
        self.lines += [f'0 counter {self.name} aps {backup["aps"]}'] if backup['aps'] else []
        lines = tables.lines_between(self.tables, in_use(backup), self.name)
        lines = [line for line in lines if not line.startswith('draw ')]
        if lines:
            self.cut_short(lines, 'stopped', 'the store held more than its network key at the start')
            self.put(f'boot {self.name}')
        self.tables = backup

    def stand(self, found: dict, end: str, why: str) -> bool:
        """Writes what leads to the tables that a session found as an event that was cut short, and returns whether
        there is such a thing."""
        back = tables.came_back(self.tables, found)
        if back is not None:
            raise BadLog(
                f'{why}: {back} is a member again by a key that was dropped, so a backup was restored. '
                'A transcript has no restore: make one of the sessions since then'
            )
        try:
            lines = tables.between(self.tables, found, self.name)
        except tables.Apart:
            raise BadLog(f'{why}, and no changes lead from what was there to what is there') from None
        if lines:
            self.cut_short(lines, end, why)
        self.tables = found
        return bool(lines)

    def cut_short(self, lines: List[str], end: str, why: str) -> None:
        """Writes changes as an event that was cut short. A limit that went up by several blocks has an event for each
        of them."""
        commit, self.notes = f'commit {self.name}', [*self.notes, f'{why}: {len(lines)} changes']
        for word in ('nwk', 'aps'):
            for limit in self.blocks_before(lines, word):
                self.put(f'reserve {self.name} {word} {limit}', commit, f'stopped {self.name}')
                self.put(f'boot {self.name}')
        self.put(*lines, commit, f'{end} {self.name}' if end == 'stopped' else f'down {self.name} {end}')

    def blocks_before(self, lines: List[str], word: str) -> Any:
        """Returns the limits of a layer between that of the tables and the one to which it is raised."""
        start = f'reserve {self.name} {word} '
        raised = next((int(line[len(start) :]) for line in lines if line.startswith(start)), None)
        if raised is None:
            return []
        old = self.tables['aps'] if word == 'aps' else tables.active_net(self.tables)['limit']
        return range(old + self.block, raised, self.block)

    def take(self, asked: Any) -> None:
        """Writes the event of a line that was answered, and before it the frame that it heard."""
        self.hear(asked)
        self.event += 1
        for line in asked.lines:
            words = line.split(' ')
            words[0] = str(self.event)
            if words[1] == 'send':
                self.frame += 1
                words[3] = str(self.frame)
            tables.change(self.tables, ' '.join(words[1:]))
            self.lines.append(' '.join(words))

    def hear(self, asked: Any) -> None:
        """Writes the frame that a line delivers as an injected one."""
        words = asked.text.split(' ')
        if words[0] == 'deliver' and words[1] != '-':
            self.frame += 1
            self.put(f'inject {self.frame} {words[1].upper()}')

    def restart(self, session: Any, backup: str) -> None:
        """Writes that the centre went down after a session and was started again, and what stood then."""
        cut = session.cut()
        if backup is None and cut is not None:
            raise BadLog(
                f'line {cut.place}: `{cut.kind}` had no answer, '
                'and the next session asks for no `backup` before its first event'
            )
        why = f'line {cut.place}: `{cut.kind}` had no answer' if cut else 'the store was changed between two sessions'
        end = 'disk' if session.end == 'store fault' else 'stopped'
        if cut is not None:
            self.hear(cut)
        if backup is None or not self.stand(tables.read(backup), end, why):
            self.put(f'down {self.name} reset')
        self.put(f'boot {self.name}')

    def text(self) -> str:
        """Returns the transcript, with its end line."""
        kinds = [line.split(' ')[1] for line in self.lines]
        seals, accepts, refusals = (kinds.count(kind) for kind in ('seal', 'accept', 'refuse'))
        ideal = 'no' if accepts else 'yes'
        end = f'end {self.event} {seals} {accepts} {refusals} {ideal} yes'
        return '\n'.join([*self.lines, end]) + '\n'


def make(sessions: list) -> Transcript:
    """Returns the transcript of the sessions on one store, in their order."""
    if not sessions:
        raise BadLog('no session opened a store')
    for session in sessions:
        if session.header('log')[-1:] == [['log', 'none']]:
            raise BadLog('a session said `log none`: its answers leave out what an audit needs')
    if sessions[0].first_backup() is None:
        raise BadLog('the first session asks for no `backup` before its first event')
    made = Transcript(nodes_of(sessions))
    made.begin(sessions[0].first_backup())
    for number, session in enumerate(sessions):
        if number:
            made.restart(sessions[number - 1], session.first_backup())
        for asked in session.events():
            made.take(asked)
    cut = sessions[-1].cut()
    if cut is not None:
        why = 'had no answer, and no session came after it: it is left out'
        made.notes.append(f'line {cut.place}: `{cut.kind}` {why}')
    return made
