"""Reads the records of nodes (docs/FORMATS.md, "The record"), which the proved program shows, for the tests of
explore."""
import struct

STATES = ('fresh', 'knocked', 'joined', 'offered', 'confirmed', 'rejoining', 'gone')
ATTRIBUTES = ('provisional', 'unverified', 'verified')


class Cursor:
    """Takes fields, least significant byte first."""

    def __init__(self, data):
        self.data, self.at = data, 0

    def take(self, shape):
        values = struct.unpack_from('<' + shape, self.data, self.at)
        self.at += struct.calcsize('<' + shape)
        return values

    def eui(self):
        return f'{self.take("Q")[0]:016X}'

    def key(self):
        return self.take('16s')[0].hex().upper()


def read_net(cursor):
    sequence_row = [cursor.key(), *cursor.take('BBI')]
    return dict(zip(('key', 'sequence', 'flags', 'limit'), sequence_row))


def read_link(cursor):
    partner, key = cursor.eui(), cursor.key()
    attribute, flags, floor = cursor.take('BBI')
    return {'partner': partner, 'key': key, 'attribute': ATTRIBUTES[attribute], 'flags': flags, 'floor': floor}


def read_record(data):
    """Returns the fields of a record of version 3."""
    cursor = Cursor(data)
    version, _, state, _, aps_limit, roll, count, active = cursor.take('BBBIIBHH')
    assert version == 3
    nets = [read_net(cursor) for _ in range(count)]
    for row in (it for it in nets if it['flags'] & 1):
        row['floors'] = [(cursor.eui(), cursor.take('I')[0]) for _ in range(cursor.take('B')[0])]
    links = [read_link(cursor) for _ in range(cursor.take('H')[0])]
    pairs = [(cursor.eui(), cursor.eui(), cursor.key(), cursor.take('B')[0]) for _ in range(cursor.take('H')[0])]
    return {
        'state': STATES[state],
        'aps_limit': aps_limit,
        'roll': roll,
        'active': active,
        'nets': nets,
        'links': links,
        'pairs': pairs,
    }
