"""The plain schedule that a scenario becomes, line by line, and what tc makes of it so far."""
import collections
import hashlib
from typing import Dict, List, Optional, Tuple, Union

from .. import program, told
from ..errors import WRONG_INPUT, Stop
from ..formats import diagnosis, policy, stories
from ..formats.causes import CAUSES
from ..formats.grammar import describe
from ..formats.words import crc_of

CODE_BYTES = 16
FIRST_EUI, FIRST_SHORT = 0x00124B0000000001, 0x1001
BLOCKS = '16 4'

# text: a line of the schedule; origin: the number of the line of the scenario that it comes of
Entry = collections.namedtuple('Entry', 'text origin')

# groups: the fields of the lines of each event; frames: how many frames went on the air
Played = collections.namedtuple('Played', 'groups frames')


# names: whom the last frame reaches
Hear = collections.namedtuple('Hear', 'names')

# How much of a plan there is: of its lines, the comments that wait, and the events; and of its transcript
Mark = collections.namedtuple('Mark', 'body pending events taken lines frames')

# How often frame numbers are guessed before tc is asked event by event.
MOST_GUESSES = 4


class Refused(Exception):
    """A step of a line was refused: its event, and the fields of the refusal."""

    def __init__(self, event: str, fields: dict) -> None:
        super().__init__(event)
        self.event, self.fields = event, fields


def refusal_in(group: List[dict]) -> Optional[dict]:
    """Returns the fields of the refusal among the lines of an event, or none."""
    return next((it for it in group if it['kind'] == 'refuse'), None)


def texts_of(step: Union[Hear, str], frame: Optional[int]) -> List[str]:
    """Returns the events that a step is: itself, or a delivery of the frame for each node that hears it."""
    return [f'deliver {frame} {name}' for name in step.names] if isinstance(step, Hear) else [step]


def shape_of(step: Union[Hear, str]) -> Union[Tuple[str, int], str]:
    """Returns what a step has in common with those that send as many frames."""
    return ('hear', len(step.names)) if isinstance(step, Hear) else step.split(' ')[0]


def guess(steps: list, base: int, counts: Dict[int, int]) -> Optional[Tuple[List[str], List[Optional[int]]]]:
    """Returns the events of some steps, and of each the frame that it delivers or none.

    `base` is the last frame before them, and `counts` has how many frames events sent; others are taken to send one."""
    texts, frames, last = [], [], base
    for step in steps:
        frame = last if isinstance(step, Hear) else None
        for text in texts_of(step, frame):
            last += counts.get(len(texts), 1)
            texts.append(text)
            frames.append(frame)
    return texts, frames


class Plan:
    """The schedule so far. Declarations come first, then the keys of the supply, then the events."""

    def __init__(self, name: str, supply: int) -> None:
        self.name = name
        self.seed = 'gabzetu'
        self.supply = supply
        self.declared, self.body, self.pending = [], [], []
        self.origin = 0
        self.nodes, self.codes = {}, {}
        self.has_draws = self.has_begun = False
        self.played: Optional[Played] = None
        self.taken, self.groups, self.lines, self.frames = '', collections.defaultdict(list), [], 0
        self.lost, self.counts = {}, {}
        self.made = 0

    # ---- what is made from the seed

    def from_seed(self, what: str) -> str:
        """Returns 16 bytes that only the seed and `what` decide, as digits."""
        return hashlib.sha256(f'{self.seed} {what}'.encode()).hexdigest()[: 2 * CODE_BYTES].upper()

    def new_key(self) -> str:
        """Returns a key from the seed that no call before returned."""
        self.made += 1
        return self.from_seed(f'key {self.made}')

    def new_code(self, name: str) -> str:
        """Returns the install code of a node, from the seed."""
        digits = self.from_seed(f'code {name}')
        return digits + crc_of(bytes.fromhex(digits)).hex().upper()

    # ---- lines

    def comment(self, text: str) -> None:
        """Adds a comment, or an empty line. It comes before the next declaration or event, whichever comes."""
        self.pending.append(Entry(text, self.origin))

    def settle(self, lines: List[Entry]) -> None:
        """Puts the comments that wait before what comes next."""
        lines += self.pending
        self.pending = []

    def declare(self, text: str) -> None:
        """Adds a declaration. All come before the first event."""
        if self.has_begun:
            raise self.stop('a declaration after an event: all declarations come first')
        words = text.split(' ')
        if words[0] == 'node':
            self.nodes[words[1]] = words[2:]
        elif words[0] == 'code':
            self.codes[words[1]] = words[2]
        self.has_draws = self.has_draws or words[0] == 'draw'
        self.settle(self.declared)
        self.declared.append(Entry(text, self.origin))

    def add_node(self, role: str, name: str) -> None:
        """Adds a node line with addresses that no node line so far has."""
        number = len(self.nodes)
        euis, shorts = {it[1] for it in self.nodes.values()}, {it[2] for it in self.nodes.values()}
        while f'{FIRST_EUI + number:016X}' in euis or f'{FIRST_SHORT + number:04X}' in shorts:
            number += 1
        short = '0000' if role == 'centre' else f'{FIRST_SHORT + number:04X}'
        self.declare(f'node {name} {role} {FIRST_EUI + number:016X} {short} {BLOCKS}')

    def attempt(self, text: str) -> None:
        """Adds an event, whatever comes of it."""
        self.has_begun = True
        self.settle(self.body)
        self.body.append(Entry(text, self.origin))
        self.played = None

    def do(self, text: str) -> List[dict]:
        """Adds an event that must not be refused, and returns the fields of its lines."""
        self.attempt(text)
        group = self.play().groups[self.events()]
        refused = refusal_in(group)
        if refused:
            raise Refused(text, refused)
        return group

    def do_all(self, steps: list) -> Optional[List[List[dict]]]:
        """Adds events and hearings, none of which may be refused, and returns the lines of each event.

        The numbers of frames are guessed, so that tc plays all at once. If a guess fails, tc plays one by one."""
        groups = self.do_at_once(steps)
        return self.do_one_by_one(steps) if groups is None else groups

    def do_one_by_one(self, steps: list) -> List[List[dict]]:
        """Adds events and hearings, each after tc played those before it, and returns the lines of each event."""
        groups = []
        for step in steps:
            frame = self.last_frame() if isinstance(step, Hear) else None
            groups += [self.do(text) for text in texts_of(step, frame)]
        return groups

    def do_at_once(self, steps: list) -> Optional[List[List[dict]]]:
        """Adds events and hearings by guessed frame numbers, and returns the lines of each event; or none, and adds
        nothing, if no guess is right."""
        base, mark = self.play().frames, self.mark()
        shape = tuple(shape_of(step) for step in steps)
        for _ in range(MOST_GUESSES):
            counts = self.counts.get(shape, {})
            texts, frames = guess(steps, base, counts)
            for text in texts:
                self.attempt(text)
            groups = self.groups_since(mark)
            found, is_right = self.checked(texts, frames, groups, base, mark)
            self.counts[shape] = {**counts, **found}
            if is_right:
                return groups
            self.back_to(mark)
        return None

    def groups_since(self, mark: Mark) -> List[List[dict]]:
        """Returns the lines of the events that were added since a mark."""
        groups = self.play().groups
        return [groups[number] for number in range(mark.events + 1, self.events() + 1)]

    def checked(
        self, texts: List[str], frames: List[Optional[int]], groups: List[List[dict]], base: int, mark: Mark
    ) -> Tuple[Dict[int, int], bool]:
        """Returns how many frames each event sent, up to the first wrong guess, and whether all guesses are right.

        Raises Refused for a refusal before that, and takes back what follows the refused event."""
        found, last = {}, base
        for place, (text, frame, group) in enumerate(zip(texts, frames, groups)):
            is_first = place == 0 or frames[place - 1] != frame
            if frame is not None and is_first and (frame != last or frame == base):
                return found, False
            refused = refusal_in(group)
            if refused:
                self.back_to(mark)
                for it in texts[: place + 1]:
                    self.attempt(it)
                raise Refused(text, refused)
            found[place] = sum(it['kind'] in ('send', 'inject') for it in group)
            last += found[place]
        return found, True

    def mark(self) -> Mark:
        """Returns what is needed to take back all that is added after it."""
        self.play()
        return Mark(len(self.body), list(self.pending), self.events(), self.taken, len(self.lines), self.frames)

    def back_to(self, mark: Mark) -> None:
        """Takes back what was added since a mark."""
        del self.body[mark.body :], self.lines[mark.lines :]
        for number in [it for it in self.groups if it > mark.events]:
            del self.groups[number]
        self.pending, self.taken, self.frames = list(mark.pending), mark.taken, mark.frames
        self.played = Played(self.groups, self.frames)

    # ---- what tc makes of it

    def events(self) -> int:
        """Returns how many events there are so far."""
        return sum(1 for it in self.body if it.text and not it.text.startswith('#'))

    def draws(self, count: int) -> List[Entry]:
        """Returns the keys of the supply as lines, where the scenario has no draw line."""
        if self.has_draws or not count:
            return []
        keys = [Entry(f'draw {self.from_seed(f"draw {number}")}', 0) for number in range(1, count + 1)]
        return [Entry('# the supply of keys', 0), *keys]

    def entries(self, supply: int) -> List[Entry]:
        """Returns all lines so far, with a supply of this many keys."""
        return self.declared + self.draws(supply) + self.body

    def play(self) -> Played:
        """Returns what tc plays of the schedule so far."""
        if self.played is None:
            entries = self.entries(self.supply)
            data = ''.join(f'{it.text}\n' for it in entries).encode()
            ran = program.run_tc(['play'], data)
            if ran.status:
                raise self.refusal(ran, entries, data)
            self.played = self.read(ran.output.decode('ascii'))
        return self.played

    def read(self, text: str) -> Played:
        """Returns what a transcript says of each event. What an earlier one said too is not read again."""
        body = text[: text.rindex('\n', 0, -1) + 1]  # the end line is another one each time
        if not body.startswith(self.taken):
            self.taken, self.groups, self.lines, self.frames = '', collections.defaultdict(list), [], 0
        for line in stories.read_text(body[len(self.taken) :]):
            self.groups[stories.event_of(line)].append(line.fields)
            self.lines.append(line.fields)
            self.frames += line.fields['kind'] in ('send', 'inject')
        self.taken = body
        return Played(self.groups, self.frames)

    def refusal(self, ran: program.Completed, entries: List[Entry], data: bytes) -> Stop:
        """Returns why tc refuses the schedule, at the line of the scenario that its line comes of."""
        words = told.last_words(ran.output)
        if ran.status != 5 or len(words) != 3:
            return Stop(told.fault_of('schedule', self.name, ran.status, ran.output), told.exit_status(ran.status))
        number = int(words[1])
        if number <= len(entries):
            self.origin = entries[number - 1].origin
        found = [it for it in diagnosis.find_mistakes('schedule', data, number, 1) if it.line == number]
        if not found:
            return self.stop(CAUSES['schedule'].get(words[2], words[2]))
        earlier = found[0].earlier and entries[found[0].earlier - 1].origin
        return self.stop(describe(found[0]._replace(earlier=earlier)).split(': ', 1)[1])

    def stop(self, why: str) -> Stop:
        """Returns what stops with a message at the line of the scenario."""
        return Stop(f'{self.name}:{self.origin}: {why}', WRONG_INPUT)

    # ---- questions on the run so far

    def centre(self) -> str:
        """Returns the name of the centre."""
        name = next((name for name, words in self.nodes.items() if words[0] == 'centre'), None)
        if name is None:
            raise self.stop("there is no centre: write 'centre NAME' first")
        return name

    def node(self, name: str) -> List[str]:
        """Returns the words of a node line after the name."""
        if name not in self.nodes:
            raise self.stop(f"no node '{name}' is declared")
        return self.nodes[name]

    def fields(self) -> List[dict]:
        """Returns the fields of all lines so far, in order."""
        self.play()
        return self.lines

    def state(self, name: str) -> str:
        """Returns the state of a router or device."""
        found = [it['state'] for it in self.fields() if it['kind'] == 'state' and it['node'] == name]
        return found[-1] if found else 'fresh'

    def members(self) -> List[str]:
        """Returns the names of the devices that the centre counts as live."""
        names = {words[1].upper(): name for name, words in self.nodes.items()}
        live = {}
        for it in self.fields():
            if it['kind'] in ('live', 'removed'):
                live[names.get(it['device'])] = it['kind'] == 'live'
        return [name for name, is_live in live.items() if is_live]

    def last_frame(self) -> int:
        """Returns the number of the last frame on the air, which wasn't lost."""
        frame = self.play().frames
        if not frame:
            raise self.stop('no frame is on the air yet')
        if frame in self.lost:
            raise self.stop(
                f'frame {frame}, the last one, was lost in line {self.lost[frame]}; no other one went out since'
            )
        return frame

    def was_heard(self, frame: int) -> bool:
        """Returns whether a deliver line of this frame exists so far."""
        return any(it.text.startswith(f'deliver {frame} ') for it in self.body)

    # ---- the schedule

    def text(self) -> str:
        """Returns the schedule, with a word after each event that is refused, and a supply as long as the run
        needs."""
        groups = self.play().groups
        self.settle(self.body)
        used = sum(it['kind'] == 'draw' for it in self.fields())
        lines, event = [it.text for it in self.declared + self.draws(used)], 0
        for it in self.body:
            lines.append(it.text)
            if it.text and not it.text.startswith('#'):
                event += 1
                lines += [
                    f'#! refused by {self.words_of(fields)}' for fields in groups[event] if fields['kind'] == 'refuse'
                ]
        return ''.join(f'{line}\n' for line in lines)

    @staticmethod
    def words_of(fields: dict) -> str:
        """Returns a refusal in words."""
        sentence = policy.sentence_of_refusal(None, fields['layer'], fields['reason'], fields['layer'] == 'nwk')
        return f'{fields["node"]}: {fields["layer"]} {fields["reason"]} ({sentence})'
