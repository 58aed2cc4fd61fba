"""The words of sessions and of scripts of `admin`, by docs/FORMATS.md and docs/ADMIN.md, which all tools around the
centre read here; and words that are made up: keys and install codes."""
from typing import Any


# The lines of a session before `open`, those that only show something, and the last lines of one that ends by itself.
HEADER = ('centre', 'peer', 'log', 'open')
QUESTIONS = ('list', 'backup')
ENDS = ('usage', 'read fault', 'no memory', 'store fault', 'no store', 'worn', 'busy', 'too long', 'bad store')
# The commands of a script of `admin`.
COMMANDS = ('init', 'provision', 'remove', 'list', 'backup', 'restore')

RECEIVED = {'reserve', 'floor'}
# The events of a session, and the change lines that each may give.
EVENTS = {
    'deliver': RECEIVED | {'draw', 'drop', 'row', 'pair', 'live', 'removed', 'told', 'untold'},
    'child': {'reserve'},
    'timer': {'reserve', 'told', 'untold'},
    'say': {'reserve'},
    'provision': {'drop', 'row', 'live'},
    'remove': {'reserve', 'drop', 'removed'},
    'roll': {'draw', 'drop', 'install', 'roll', 'untold'},
    'switch': {'reserve', 'drop', 'active', 'start', 'roll'},
    'again': {'untold'},
    'share': {'reserve'},
}


def new_key(dice: Any) -> str:
    """Returns a key as its 32 digits."""
    return f'{dice.getrandbits(128):032X}'


def install_code(number: int) -> str:
    """Returns the digits of an install code of 6 bytes and its CRC, low byte first."""
    data, crc = number.to_bytes(6, 'big'), 0xFFFF
    for byte in data:
        crc ^= byte
        for _ in range(8):
            crc = crc >> 1 ^ (0x8408 if crc & 1 else 0)
    return (data + (crc ^ 0xFFFF).to_bytes(2, 'little')).hex().upper()
