"""What each line of a scenario becomes: the events of a schedule, whose frame numbers come of playing what is there
so far."""
import itertools
from typing import Any, Dict, Iterator, List

from ..errors import WRONG_INPUT, Stop
from ..formats import policy, schedules
from ..formats.grammar import describe, read_lines
from . import language
from .plan import Hear, Plan, Refused

# How many members a rollover can have.
MOST_TOLD = 64


def is_state_of(fields: dict, name: str) -> bool:
    """Returns whether a line says what state a node has."""
    return fields['kind'] == 'state' and fields['node'] == name


class Steps:
    """Takes the lines of a scenario one by one. A method of the name of a line's form takes it."""

    def __init__(self, plan: Plan) -> None:
        self.plan = plan

    # ---- declarations

    def seed(self, values: Dict[str, str]) -> None:
        """Takes a `seed` line."""
        self.plan.seed = values['SEED']

    def centre(self, values: Dict[str, str]) -> None:
        """Takes a `centre` line."""
        self.plan.add_node('centre', values['NAME'])

    def router(self, values: Dict[str, str]) -> None:
        """Takes a `router` line."""
        self.plan.add_node('router', values['NAME'])

    def device(self, values: Dict[str, str]) -> None:
        """Takes a `device` line."""
        self.plan.add_node('device', values['NAME'])

    def code_auto(self, values: Dict[str, str]) -> None:
        """Adds a code from the seed."""
        self.plan.declare(f'code {values["NAME"]} {self.plan.new_code(values["NAME"])}')

    def key_auto(self, values: dict) -> None:
        """Adds the network key of the centre."""
        self.plan.declare(f'netkey {self.plan.centre()} {self.plan.new_key()} 0')

    def netkey_auto(self, values: dict) -> Any:
        """Adds a network key of a node."""
        self.plan.declare(f'netkey {values["NAME"]} {self.plan.new_key()} {values["SEQ"]}')

    def draw_auto(self, values: dict) -> None:
        """Adds a key of the supply."""
        self.plan.declare(f'draw {self.plan.new_key()}')

    # ---- frames

    def deliver_last(self, values: Dict[str, str]) -> None:
        """The last frame reaches these nodes, which may refuse it."""
        frame = self.plan.last_frame()
        for name in values['NAMES'].split(' '):
            self.plan.attempt(f'deliver {frame} {name}')

    def lose_last(self, values: dict) -> None:
        """The last frame is lost."""
        frame = self.plan.last_frame()
        if self.plan.was_heard(frame):
            raise self.plan.stop(f'frame {frame}, the last one, was delivered already')
        self.plan.lost[frame] = self.plan.origin
        self.plan.comment(f'#! frame {frame} is lost')

    def say(self, values: Dict[str, str]) -> None:
        """A node says bytes to the address of another one, and may be refused."""
        self.plan.attempt(f'say {values["NAME"]} {self.plan.node(values["TO"])[2]} {values["DATA"]}')

    def send(self, values: Dict[str, str]) -> None:
        """What can't be said is not heard: then no frame went out."""
        before = self.plan.play().frames
        self.say(values)
        if self.plan.play().frames > before:
            self.plan.attempt(f'deliver {self.plan.last_frame()} {values["TO"]}')

    # ---- joins

    def join(self, values: Dict[str, str]) -> None:
        """The whole join."""
        if not self.join_at_once(values):
            self.plan.do_all(self.admission(values) + self.attachment(values))
            self.confirm(values)

    def join_at_once(self, values: Dict[str, str]) -> bool:
        """Adds the whole join if a device is `joined` once it has the network key, and returns whether it is so."""
        name, mark = values['NAME'], self.plan.mark()
        first = self.admission(values) + self.attachment(values)
        try:
            groups = self.plan.do_at_once([*first, *self.exchange(name), *self.exchange(name)])
        except Refused:
            groups = None
        states = [it['state'] for group in (groups or [])[: len(first)] for it in group if is_state_of(it, name)]
        if states[-1:] == ['joined']:
            return True
        self.plan.back_to(mark)
        return False

    def admit(self, values: Dict[str, str]) -> None:
        """The centre admits a device, unless it is a member, and the device knocks."""
        self.plan.do_all(self.admission(values))

    def admission(self, values: Dict[str, str]) -> List[str]:
        """Returns the steps of `admit`."""
        name = values['NAME']
        if name not in self.plan.codes:
            self.plan.node(name)
            raise self.plan.stop(f"'{name}' has no install code: write 'code {name} auto' among the declarations")
        is_member = name in self.plan.members()
        return [*([] if is_member else [f'provision {name} {self.plan.codes[name]}']), f'knock {name}']

    def attach(self, values: Dict[str, str]) -> None:
        """A device comes to a parent, and gets the network key."""
        self.plan.do_all(self.attachment(values))

    def attachment(self, values: Dict[str, str], way: str = 'join') -> list:
        """Returns the steps of `attach`."""
        name, centre = values['NAME'], self.plan.centre()
        parent = values.get('PARENT', centre)
        hearers = [name] if parent == centre else [centre, parent, name]
        return [f'child {parent} {name} {way}', *(Hear([it]) for it in hearers)]

    def confirm(self, values: Dict[str, str]) -> None:
        """A device gets its link key, and verifies it."""
        name, state = values['NAME'], self.plan.state(values['NAME'])
        if state == 'confirmed':
            raise self.plan.stop(f"'{name}' is confirmed already")
        self.plan.do_all(self.exchange(name) * (2 if state == 'joined' else 1))

    def exchange(self, name: str) -> list:
        """Returns the steps by which a device asks the centre, and hears its answer."""
        return [f'timer {name}', Hear([self.plan.centre()]), Hear([name])]

    def return_(self, values: Dict[str, str]) -> None:
        """A device rejoins."""
        self.plan.do_all([f'rejoin {values["NAME"]}', *self.attachment(values, 'rejoin')])
        if self.plan.state(values['NAME']) != 'confirmed':
            self.confirm(values)

    # ---- the centre

    def remove(self, values: Dict[str, str]) -> None:
        """The centre removes a device, which hears it."""
        self.plan.do_all([f'remove {values["NAME"]} via {self.plan.centre()}', Hear([values['NAME']])])

    def rollover(self, values: Dict[str, str]) -> None:
        """A whole rollover of the network key."""
        asleep = values['NAMES'].split(' ') if 'NAMES' in values else []
        for name in asleep:
            self.plan.node(name)
        self.plan.do('roll')
        told = self.tell_members(asleep)
        awake = [it for it in told if it not in asleep]
        self.plan.do_all(['switch', *([Hear(awake)] if awake else [])])

    def tell_members(self, asleep: List[str]) -> List[str]:
        """The centre tells each member of the new key, and those that aren't asleep hear it. Returns whom it told,
        in order."""
        timer, mark, told = f'timer {self.plan.centre()}', self.plan.mark(), self.next_told()
        steps = [it for name in told for it in [timer, *([] if name in asleep else [Hear([name])])]]
        try:
            groups = self.plan.do_all(steps)
        except Refused:
            groups = []
        if self.names_told(groups) == told:
            return told
        self.plan.back_to(mark)
        return self.tell_one_by_one(asleep)

    def next_told(self) -> List[str]:
        """Returns whom the centre would tell next, in order: its timer is tried, and taken back."""
        mark = self.plan.mark()
        for _ in self.plan.members()[:MOST_TOLD]:
            self.plan.attempt(f'timer {self.plan.centre()}')
        told = self.names_told(self.plan.groups_since(mark))
        self.plan.back_to(mark)
        return told

    def tell_one_by_one(self, asleep: Any) -> List[str]:
        """Tells the members as `tell_members` does, if hearing changes who is told next."""
        told = []
        for _ in range(MOST_TOLD):
            mark = self.plan.mark()
            try:
                names = self.names_told([self.plan.do(f'timer {self.plan.centre()}')])
            except Refused as refused:
                if refused.fields['reason'] != 'wrong-state':
                    raise
                self.plan.back_to(mark)
                break
            told += names
            self.plan.do_all([Hear([it]) for it in names if it not in asleep])
        return told

    def names_told(self, groups: List[List[dict]]) -> List[str]:
        """Returns the names of those whom the centre told in some events."""
        names = {words[1].upper(): name for name, words in self.plan.nodes.items()}
        return [names[it['device']] for group in groups for it in group if it['kind'] == 'told']

    def pair(self, values: Dict[str, str]) -> None:
        """Two devices get a key of their own."""
        name, partner, centre = values['NAME'], values['PARTNER'], self.plan.centre()
        self.plan.do_all([f'ask {name} {partner}', Hear([centre]), Hear([name])])
        self.plan.do_all([f'share {partner} {name}', Hear([partner])])

    def restart(self, values: Dict[str, str]) -> None:
        """A node loses its power and starts again."""
        self.plan.do_all([f'reset {values["NAME"]}', f'boot {values["NAME"]}'])


def take_line(plan: Plan, steps: Steps, line: Any) -> None:
    """Takes a line of a scenario into the plan."""
    found, line, _ = language.GRAMMAR.read(line)
    if found in language.PLAIN:
        take_plain(plan, found, line)
        return
    plan.comment(f'#: {line.text}')
    method = language.method_of(found)
    values = {key: word.text for key, word in found.values(line).items()}
    try:
        getattr(steps, method if hasattr(Steps, method) else method + '_')(values)
    except Refused as refused:
        fields = refused.fields
        why = policy.REASONS.get(fields['reason'], '')
        raise plan.stop(
            f"'{line.text}': its step '{refused.event}' is refused by {fields['node']}: {fields['layer']} "
            f"{fields['reason']} ({why}). Write the events one by one where it is meant to be refused"
        ) from refused


def take_plain(plan: Plan, found: Any, line: Any) -> None:
    """Takes a line of a schedule as it is."""
    if found.first in schedules.DECLARED:
        plan.declare(line.text)
    else:
        plan.attempt(line.text)


def supply_of(lines: list) -> int:
    """Returns how many keys of the supply a scenario needs at most."""
    return sum(it.words[0].text not in ('node', 'code', 'centre', 'router', 'device') for it in lines) + 1


def text_lines(data: bytes) -> Iterator[tuple]:
    """Yields each line of a text, also those that say nothing."""
    said = {it.number: it for it in read_lines(data)}
    pieces = data.decode('latin-1').split('\n')
    for number, text in enumerate(pieces[:-1] if pieces[-1] == '' else pieces, 1):
        yield number, text.rstrip('\r'), said.get(number)


def faults_of(data: bytes, most: int = 100) -> list:
    """Returns the first mistakes of the lines of a scenario that have no form."""
    faults = (fault for _, _, fault in map(language.GRAMMAR.read, read_lines(data)) if fault)
    return list(itertools.islice(faults, most))


def check_words(name: str, data: bytes) -> None:
    """Stops with all lines of a scenario that have no form, if there are any."""
    faults = faults_of(data)
    if faults:
        raise Stop('\n'.join(f'{name}:{describe(it)}' for it in faults), WRONG_INPUT)


def write_schedule(name: str, data: bytes) -> str:
    """Returns the schedule that a scenario is, as text."""
    check_words(name, data)
    plan = Plan(name, supply_of(list(read_lines(data))))
    steps = Steps(plan)
    for number, text, line in text_lines(data):
        plan.origin = number
        if line is None:
            plan.comment(text)
        else:
            take_line(plan, steps, line)
    plan.origin += 1  # of what the whole scenario lacks
    return plan.text()
