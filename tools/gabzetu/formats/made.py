"""Writes made schedules, as docs/FORMATS.md has them ("Made schedules").

`tc make N` writes that of the start value 0. Run i of `tc campaign COUNT START JOBS` plays that of START + i for 1 +
i mod 8."""
import struct
from typing import Any, Iterator, List, Tuple

MASK = 0xFFFFFFFF
MOST = 60


def rotated(word: int, count: int) -> int:
    """Returns a word of 32 bits, rotated to the left."""
    return (word << count | word >> 32 - count) & MASK


def block(start: int, number: int) -> List[int]:
    """Returns a block of ChaCha with 8 rounds: 16 words under the key that begins with the start value, on stream
    0."""
    constants = struct.unpack('<4I', b'expand 32-byte k')
    before = [*constants, start, 0, 0, 0, 0, 0, 0, 0, number & MASK, number >> 32, 0, 0]
    it = list(before)

    def quarter(a: int, b: int, c: int, d: int) -> None:
        for first, second, third, count in ((a, b, d, 16), (c, d, b, 12), (a, b, d, 8), (c, d, b, 7)):
            it[first] = (it[first] + it[second]) & MASK
            it[third] = rotated(it[third] ^ it[first], count)

    for _ in range(4):
        for a, b, c, d in (
            (0, 4, 8, 12),
            (1, 5, 9, 13),
            (2, 6, 10, 14),
            (3, 7, 11, 15),
            (0, 5, 10, 15),
            (1, 6, 11, 12),
            (2, 7, 8, 13),
            (3, 4, 9, 14),
        ):
            quarter(a, b, c, d)
    return [(first + second) & MASK for first, second in zip(it, before)]


def words_of(start: int) -> Iterator[int]:
    """Yields the words of the generator without an end."""
    number = 0
    while True:
        yield from block(start, number)
        number += 1


def crc(data: bytes) -> int:
    """Returns the CRC of an install code: polynomial 1021, reflected, first value and last sum FFFF."""
    rest = 0xFFFF
    for bit in (byte >> place & 1 for byte in data for place in range(8)):
        rest = rest >> 1 ^ (0x8408 if (rest ^ bit) & 1 else 0)
    return rest ^ 0xFFFF


def name(i: int) -> str:
    """Returns the name of node i; 0 is the centre."""
    return f'd{i}' if i else 'c'


def join_lines(i: int, code: str) -> List[str]:
    """Returns the events by which device i joins."""
    f, d = 5 * (i - 1), name(i)
    return [
        f'provision {d} {code}',
        f'knock {d}',
        f'child c {d} join',
        f'deliver {f + 1} {d}',
        f'timer {d}',
        f'deliver {f + 2} c',
        f'deliver {f + 3} {d}',
        f'timer {d}',
        f'deliver {f + 4} c',
        f'deliver {f + 5} {d}',
    ]


def step_lines(n: int, a: int, b: int, p: int, q: int) -> List[str]:
    """Returns the events of one step among n devices, by four words."""
    kind, x = a % 8, name(b % (n + 1))
    if kind < 2:
        return [f'say {x} FFFF {p % 256:02X}']
    if kind < 5:
        return [f'deliver {1 + p % (10 * n)} {x}']
    if kind == 5:
        return [f'timer {x}']
    if kind == 6:
        return [f'reset {x}', f'boot {x}']
    return [f'stop {x} {p % 6} {q % 256:02X}', f'say {x} FFFF 00', f'boot {x}']


def declarations(words: Iterator[Any], n: int) -> Tuple[List[str], List[str]]:
    """Returns the declarations for n devices, and their install codes."""

    def key() -> bytes:
        return b''.join(struct.pack('<I', next(words)) for _ in range(4))

    lines = ['node c centre 00124B0000000001 0000 8 4']
    lines += [
        f'node {name(i)} {"router" if i % 5 == 1 else "device"} {0x00124B0000000100 + i:016X} {0x1000 + i:04X} 8 4'
        for i in range(1, n + 1)
    ]
    codes = [(it + struct.pack('<H', crc(it))).hex().upper() for it in [key() for _ in range(n)]]
    lines += [f'code {name(i)} {code}' for i, code in enumerate(codes, 1)]
    lines += [f'netkey c {key().hex().upper()} 0', *(f'draw {key().hex().upper()}' for _ in range(n + 1))]
    return lines, codes


def last_lines(words: Iterator[Any], n: int) -> List[str]:
    """Returns the events from the removal on."""
    deliveries = [(next(words), next(words)) for _ in range(10 * n)]
    return [
        'remove d1 via c',
        'roll',
        *['timer c'] * (n - 1),
        'switch',
        *(f'deliver {1 + p % (20 * n)} {name(b % (n + 1))}' for b, p in deliveries),
    ]


def made(start: int, n: int) -> List[str]:
    """Returns the lines of the made schedule for n routers and devices. It may clash, which `tc play` says."""
    words = words_of(start)
    lines, codes = declarations(words, n)
    for i, code in enumerate(codes, 1):
        lines += join_lines(i, code)
    steps = [step_lines(n, next(words), next(words), next(words), next(words)) for _ in range(20 * n)]
    return [*lines, *(line for step in steps for line in step), *last_lines(words, n)]
