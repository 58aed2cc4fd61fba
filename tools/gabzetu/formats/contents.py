"""Says in a few words what the frames of a capture carry, as far as tc opened them."""
from typing import Any, Optional

from . import headers, names
from .addresses import content_of, payload_of

def command_words(content: bytes) -> str:
    """Returns what an APS command is, and of a Transport-Key which key it carries."""
    name = names.aps_command(content)
    if content[0] == 5 and len(content) >= 18:
        kind = names.KEY_TYPES.get(content[1], f'key of type {content[1]}')
        return f'{name}: {kind} {content[2:18].hex().upper()}'
    return name


def tunnel_words(layers: Any) -> str:
    """Returns what a Tunnel is, and what is in it as far as it is open."""
    inner = [it.content for it in layers if it.kind == 'inner' and it.content not in (None, '-')]
    return f'Tunnel of {command_words(bytes.fromhex(inner[0]))}' if inner else 'Tunnel'


def payload_words(payload: bytes, layers: tuple) -> str:
    """Returns what an APS frame carries."""
    aps = headers.read_aps(payload)
    content = content_of(aps, layers)
    if aps.kind == headers.ACK:
        return 'acknowledgement'
    if aps.kind == headers.COMMAND:
        if content and content[0] == headers.TUNNEL:
            return tunnel_words(layers)
        return command_words(content) if content else 'sealed command'
    return names.data_words(aps.profile, aps.cluster, content)


def describe(frame: Any, layers: tuple) -> Optional[str]:
    """Returns what a frame carries as far as it is open, or nothing where its NWK layer is closed or is none."""
    try:
        payload = payload_of(frame.nwk, layers) if frame.nwk else None
        if payload is None:
            return ''
        if frame.nwk.kind == headers.COMMAND:
            return names.network_command(payload)
        return payload_words(payload, layers)
    except headers.Malformed:
        return ''
