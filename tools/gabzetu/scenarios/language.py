"""The lines of scenarios: their forms with a sentence each. Every line of a schedule is one of a scenario too."""
from typing import Any

from ..formats import schedules
from ..formats.grammar import Form, Grammar
from ..formats.words import Literal, Name, Rest, Seed

WHAT = 'line of a scenario'


class Names(Rest):
    """One or more names, up to the end of the line."""

    def __init__(self) -> None:
        super().__init__('NAME ..', 'one or more names')

    def fault(self, word: str) -> Any:
        """Returns what is wrong with names, or none."""
        return next(filter(None, map(Name().fault, word.split(' '))), None)


KINDS = {**schedules.KINDS, 'NAMES': Names(), 'SEED': Seed(), 'TO': Name('TO')}


def form(text: str, about: str) -> Form:
    """Returns a form of a line of a scenario."""
    return Form(WHAT, text, about, KINDS)


DECLARATIONS = [
    form('seed SEED', 'the word from which all that is `auto` after it is made; without this line it is `gabzetu`'),
    form('centre NAME', 'a node line of the centre, with an address of its own'),
    form('router NAME', 'a node line of a router'),
    form('device NAME', 'a node line of a device'),
    form('code NAME auto', 'an install code from the seed'),
    form('key auto', 'the centre holds a network key from the seed, of sequence 0'),
    form('netkey NAME auto SEQ', 'the node holds a network key from the seed'),
    form('draw auto', 'a key of the supply from the seed. Without any draw line the supply is as long as is needed'),
]

STEPS = [
    form('join NAME', 'admit, attach and confirm: the whole join, at the centre'),
    form('join NAME via PARENT', 'the same through a router'),
    form('admit NAME', 'provision by its code, unless it is a member, and knock'),
    form('attach NAME', 'it comes to the centre, and gets the network key'),
    form('attach NAME via PARENT', 'it comes to a router, and gets the network key through it'),
    form('confirm NAME', 'it asks for its link key, gets it, verifies it, and hears that it is confirmed'),
    form('return NAME', 'it rejoins at the centre, and gets the network key that is active'),
    form('return NAME via PARENT', 'it rejoins through a router'),
    form('deliver last NAMES', 'the last frame that went on the air reaches each of these nodes'),
    form('lose last', 'nobody hears the last frame; `deliver last` must wait for another one'),
    form('send NAME TO DATA', 'NAME says HEX to the node TO, which hears it, where a frame went out'),
    form('say NAME TO DATA', 'NAME says HEX to the short address of the node TO; nobody hears it yet'),
    form('rollover', 'a new network key: roll, each member is told and hears it, switch, and each member hears that'),
    form('rollover but NAMES', 'the same, and these nodes hear nothing of it'),
    form('remove NAME', 'the centre removes it, and it hears that it has to leave'),
    form('pair NAME PARTNER', 'both get a key of their own from the centre'),
    form('restart NAME', 'reset and boot'),
]

PLAIN = schedules.DECLARATIONS + schedules.EVENTS
# `centre`, `send` and others are words of their own here.
OTHERS = {
    **{
        it: other for it, other in schedules.OTHERS.items() if it not in {form.first for form in DECLARATIONS + STEPS}
    },
    'rotate': 'rollover',
    'leave': 'remove',
    'lost': 'lose',
    'drop': 'lose',
    'reboot': 'restart',
    'hear': 'deliver',
    'coordinator': 'centre',
}
GRAMMAR = Grammar(PLAIN + DECLARATIONS + STEPS, OTHERS)


def method_of(found: Form) -> str:
    """Returns the name of the method that takes lines of a form: its words in lower case that aren't places."""
    fixed = [place.word for place in found.places if isinstance(place, Literal) and place.word in ('last', 'auto')]
    return '_'.join([found.first, *fixed])
