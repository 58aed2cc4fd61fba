"""What a line of a transcript says, in a sentence."""
from typing import Any

from . import frames, policy
from .names import network_command

STATES = {
    'fresh': 'has not joined',
    'knocked': 'waits for the network key',
    'joined': 'has the network key, and will ask for a link key',
    'offered': 'has a new link key, and will verify it',
    'confirmed': 'has a link key of its own that both sides verified',
    'rejoining': 'waits for the network key again',
    'gone': 'has left the network',
}
ATTRIBUTES = {
    'provisional': 'from its install code',
    'unverified': 'offered, not verified yet',
    'verified': 'verified',
}
LABELS = {
    'network': 'the network key',
    'data': 'the link key',
    'transport': 'the link key, for transport',
    'load': 'the link key, for load',
}
LAYERS = {'nwk': 'network layer', 'aps': 'application support layer'}


class Speaker:
    """Turns the fields of lines into sentences. Addresses become names, keys are shortened."""

    def __init__(self, reader: frames.Reader) -> None:
        self.reader = reader

    def name(self, eui: str) -> str:
        """Returns the name of the node of an address, or the address."""
        return self.reader.names.get(eui, eui)

    def content(self, event: int, fields: dict) -> str:
        """Returns what the content of a term is."""
        try:
            data = bytes.fromhex(fields['content'].replace('-', ''))
            if fields['layer'] == 'nwk':
                return self.network_content(event, data, fields['header'])
            if int(fields['header'][:2], 16) & 3 != frames.COMMAND:
                return frames.counted(len(data)) + ' of application data'
            return ', '.join(self.reader.describe_command(event, data, [])[0])
        except (frames.Malformed, ValueError, IndexError):
            return frames.counted(len(fields['content']) // 2)

    def network_content(self, event: int, data: bytes, header: str) -> str:
        """Returns what a frame carries whose NWK layer is open."""
        if int(header[:2], 16) & 3 == frames.COMMAND:
            return network_command(data)
        return ', '.join(self.reader.describe_aps(event, data, [])[0])

    def say(self, fields: dict) -> str:
        """Returns the sentence of a line, or nothing for a kind that has none."""
        known = getattr(self, f'say_{fields["kind"]}', None)
        return known(fields) if known else ''

    def say_node(self, it: dict) -> str:
        """Returns the sentence of a `node` line."""
        return f'{it["name"]} is a {it["role"]} at {it["eui"]}, short address {it["short"]}'

    def say_given(self, it: dict) -> str:
        """Returns the sentence of a `given` line."""
        if it['row'] == 'net':
            return f'{it["node"]} holds the network key {frames.short_key(it["key"])}, sequence {it["seq"]}'
        return (
            f'{it["node"]} holds the link key {frames.short_key(it["key"])} with {self.name(it["partner"])}, from '
            'its install code'
        )

    def say_counter(self, it: Any) -> str:
        """Returns the sentence of a `counter` line."""
        return f'{it["node"]} has used the {it["layer"]} counters below {it["n"]}'

    def say_reserve(self, it: dict) -> str:
        """Returns the sentence of a `reserve` line."""
        return f'{it["node"]} reserves the {it["layer"]} counters below {it["limit"]}'

    def say_floor(self, it: dict) -> str:
        """Returns the sentence of a `floor` line."""
        return (
            f'{it["node"]} takes no {it["layer"]} counter below {it["value"]} from {self.name(it["sender"])} any '
            'more under key '
            f'{frames.short_key(it["key"])}'
        )

    def say_draw(self, it: dict) -> str:
        """Returns the sentence of a `draw` line."""
        return f'the centre takes the key {frames.short_key(it["key"])} from its supply'

    def say_drop(self, it: dict) -> str:
        """Returns the sentence of a `drop` line."""
        if it['row'] == 'net':
            return f'{it["node"]} drops the network key {frames.short_key(it["key"])}'
        return f'{it["node"]} drops the link key {frames.short_key(it["key"])} with {self.name(it["partner"])}'

    def say_install(self, it: dict) -> str:
        """Returns the sentence of an `install` line."""
        return f'{it["node"]} has a new network key {frames.short_key(it["key"])}, sequence {it["seq"]}'

    def say_active(self, it: dict) -> str:
        """Returns the sentence of an `active` line."""
        return f'{it["node"]} seals under the network key {frames.short_key(it["key"])} from now on'

    def say_start(self, it: dict) -> str:
        """Returns the sentence of a `start` line."""
        return f'{it["node"]} begins under the network key {frames.short_key(it["key"])} at counter {it["value"]}'

    def say_row(self, it: dict) -> str:
        """Returns the sentence of a `row` line."""
        attribute = ATTRIBUTES.get(it['attribute'], it['attribute'])
        return (
            f'{it["node"]} has the link key {frames.short_key(it["key"])} with {self.name(it["partner"])}: '
            f'{attribute}'
        )

    def say_pair(self, it: dict) -> str:
        """Returns the sentence of a `pair` line."""
        pair = f'{self.name(it["first"])} and {self.name(it["second"])}'
        return f'the centre keeps {frames.short_key(it["key"])} as the key of {pair}'

    def say_state(self, it: dict) -> str:
        """Returns the sentence of a `state` line."""
        return f'{it["node"]} is {it["state"]}: it {STATES.get(it["state"], "is in this state")}'

    def say_live(self, it: dict) -> str:
        """Returns the sentence of a `live` line."""
        return f'{self.name(it["device"])} is a member from now on'

    def say_removed(self, it: dict) -> str:
        """Returns the sentence of a `removed` line."""
        return f'{self.name(it["device"])} is no member any more'

    def say_roll(self, it: dict) -> str:
        """Returns the sentence of a `roll` line."""
        return (
            'a rollover of the network key begins'
            if it['roll'] == 'sending'
            else 'the rollover of the network key ends'
        )

    def say_told(self, it: dict) -> str:
        """Returns the sentence of a `told` line."""
        return f'{self.name(it["device"])} counts as told of the new network key'

    def say_untold(self, it: Any) -> str:
        """Returns the sentence of an `untold` line."""
        return f'{self.name(it["device"])} counts as not told of the new network key, and will be told again'

    def say_commit(self, it: dict) -> str:
        """Returns the sentence of a `commit` line."""
        return f'the changes above are stored on the disk of {it["node"]}'

    def say_term(self, it: dict, verb: str) -> str:
        """Returns the sentence of a sealed or accepted term, which begins with the verb."""
        key = f'{LABELS.get(it["label"], it["label"])} {frames.short_key(it["base"])}'
        what = self.content(it.get('event', 0), it)
        return (
            f'{verb} at the {LAYERS.get(it["layer"], it["layer"])}: {what}; from {self.name(it["source"])}, counter '
            f'{it["counter"]}, under {key}'
        )

    def say_accept(self, it: dict) -> str:
        """Returns the sentence of an `accept` line."""
        return self.say_term(it, f'{it["node"]} accepts')

    def say_seal(self, it: dict) -> str:
        """Returns the sentence of a `seal` line."""
        return self.say_term(it, f'{it["node"]} seals')

    def say_forge(self, it: dict) -> str:
        """Returns the sentence of a `forge` line."""
        return self.say_term(it, 'a stranger seals')

    def say_refuse(self, it: dict) -> str:
        """Returns the sentence of a `refuse` line."""
        detail = it.get('detail')
        shown = policy.DETAILS.get(it['reason'], '{}').format(self.name(str(detail))) if detail is not None else ''
        place = 'the event' if it['layer'] == 'event' else f'the {LAYERS.get(it["layer"], it["layer"])} of the frame'
        return f'{it["node"]} refuses {place}: {it["reason"]}' + (f'; {shown}' if shown else '')

    def say_send(self, it: dict) -> str:
        """Returns the sentence of a `send` line."""
        what = self.what_goes_out(it)
        return f'frame {it["frame"]} goes on the air' + (f': {what}' if what else '')

    def what_goes_out(self, it: dict) -> str:
        """Returns what a frame on the air carries, as far as the lines show it."""
        try:
            lines, _ = self.reader.describe(it['event'], bytes.fromhex(it['bytes']))
            return ', '.join(lines)
        except ValueError:
            return ''

    def say_inject(self, it: dict) -> str:
        """Returns the sentence of an `inject` line."""
        return f'a stranger sends frame {it["frame"]}'

    def say_stopped(self, it: dict) -> str:
        """Returns the sentence of a `stopped` line."""
        return f'the disk of {it["node"]} stopped in this event; {it["node"]} has no power until it boots'

    def say_down(self, it: Any) -> str:
        """Returns the sentence of a `down` line."""
        why = 'it was reset' if it['cause'] == 'reset' else 'its disk failed'
        return f'{it["node"]} has no power until it boots: {why}'

    def say_boot(self, it: dict) -> str:
        """Returns the sentence of a `boot` line."""
        return f'{it["node"]} starts again from its disk'

    def say_dump(self, it: Any) -> str:
        """Returns the sentence of a `dump` line."""
        return f'the record on the disk of {it["node"]}'

    def say_end(self, it: dict) -> str:
        """Returns the sentence of an `end` line."""
        ideal = (
            'whatever was accepted was sealed or forged before'
            if it['ideal']
            else 'something was accepted that nobody sealed'
        )
        private = (
            'outsiders knew no key of the network'
            if it['private']
            else 'an outsider forged with a key of the network'
        )
        return (
            f'{it["events"]} events, {it["seals"]} sealed, {it["accepts"]} accepted, {it["refusals"]} refused; '
            f'{ideal}; '
            f'{private}'
        )
