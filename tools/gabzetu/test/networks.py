"""Makes captures of small networks for the tests of watch, with or without a fault.

The seals are made here, by AES-CCM of the library `cryptography` and by keyed hashes as annex B of the Zigbee
specification has them: nothing of tc or gabzetu makes a byte."""
import random
import struct

try:
    from cryptography.hazmat.primitives.ciphers import Cipher, algorithms, modes
    from cryptography.hazmat.primitives.ciphers.aead import AESCCM
except ImportError:  # the tests are passed over
    AESCCM = None

WELL_KNOWN = b'ZigBeeAlliance09'
PAN = 0x1A62
DATA, NETWORK, TRANSPORT, LOAD = 0, 1, 2, 3
ALL = 0xFFFD
LATE = 30.0  # seconds after which nothing may go on as before


def xor(one, other):
    return bytes(a ^ b for a, b in zip(one, other))


def encrypt_block(key, block):
    encryptor = Cipher(algorithms.AES(key), modes.ECB()).encryptor()  # noqa: S305 (a block, as the hash needs it)
    return encryptor.update(block)


def hash_of(data):
    """Returns the hash of Matyas, Meyer and Oseas of bytes."""
    padded = data + b'\x80' + bytes((13 - len(data)) % 16) + struct.pack('>H', 8 * len(data))
    state = bytes(16)
    for at in range(0, len(padded), 16):
        state = xor(encrypt_block(state, padded[at : at + 16]), padded[at : at + 16])
    return state


def keyed_hash(key, data):
    inner = hash_of(xor(key, b'\x36' * 16) + data)
    return hash_of(xor(key, b'\x5c' * 16) + inner)


def sealing_key(key, kind):
    return keyed_hash(key, {TRANSPORT: b'\0', LOAD: b'\2'}[kind]) if kind in (TRANSPORT, LOAD) else key


class Node:
    """A node with its addresses and the counters that it uses next."""

    def __init__(self, eui, short, link):
        self.eui, self.short, self.link = eui, short, link
        self.nwk, self.aps, self.sequence = 0, 0, 0


class Network:
    """A network that grows packet by packet. Each packet has a time."""

    def __init__(self, seed):
        self.random = random.Random(seed)
        self.time, self.packets, self.mac = 1700000000.0, [], 0
        self.key, self.number = self.bytes_of(16), self.random.randrange(256)
        self.keys = [self.key]
        self.centre = Node(0x00124B0000000001, 0, None)
        shorts = self.random.sample(range(1, 0xFFF0), 4)
        self.nodes = [Node(0x00124B00000000A0 + at, short, self.bytes_of(16)) for at, short in enumerate(shorts)]

    def bytes_of(self, count):
        """Returns so many bytes at random. Python 3.8 has no randbytes."""
        return bytes(self.random.randrange(256) for _ in range(count))

    # ---- bytes

    def seal(self, key, kind, header, node, counter, content, sequence=b''):
        """Returns header, auxiliary header and sealed content, as they go on the air."""
        control = kind << 3 | 0x20
        eui = struct.pack('<Q', node.eui)
        rest = struct.pack('<I', counter) + eui + sequence
        real = control | 5
        nonce = eui + struct.pack('<IB', counter, real)
        sealed = AESCCM(sealing_key(key, kind), tag_length=4).encrypt(nonce, content, header + bytes([real]) + rest)
        return header + bytes([control]) + rest + sealed

    def nwk(self, node, to, content, kind=0, is_secured=True, counter=None, key=None):
        """Returns a NWK frame of a node, sealed under the network key or a (key, sequence) of its own."""
        control = kind | 2 << 2 | (1 << 9 if is_secured else 0) | 1 << 12
        node.sequence = (node.sequence + 1) % 256
        header = struct.pack('<HHHBBQ', control, to, node.short, 30, node.sequence, node.eui)
        if not is_secured:
            return header + content
        if counter is None:
            counter, node.nwk = node.nwk, node.nwk + self.random.choice((1, 1, 1, 2, 7))
        key, number = key or (self.key, self.number)
        return self.seal(key, NETWORK, header, node, counter, content, bytes([number]))

    def aps(self, node, content, key=None, kind=DATA, counter=None):
        """Returns an APS command, sealed if there is a key."""
        header = bytes([1 | (0x20 if key else 0), self.random.randrange(256)])
        if key is None:
            return header + content
        if counter is None:
            counter, node.aps = node.aps, node.aps + 1
        return self.seal(key, kind, header, node, counter, content)

    def application(self, node):
        """Returns an APS data frame in clear: a report of a cluster."""
        content = bytes([0x18, self.random.randrange(256), 0x0A]) + self.bytes_of(6)
        return struct.pack('<BBHHBB', 0, 1, 6, 0x0104, 1, self.random.randrange(256)) + content

    # ---- packets

    def put(self, frame, node, to, seconds=None):
        """Adds a packet, some time after the last one, and returns its number."""
        self.time += seconds if seconds is not None else self.random.uniform(0.05, 1.5)
        self.mac = (self.mac + 1) % 256
        head = struct.pack('<HBHHH', 0x8841, self.mac, PAN, 0xFFFF if to >= 0xFFF8 else to, node.short)
        self.packets.append((self.time, head + frame))
        if self.random.random() < 0.1:  # nobody acknowledged it
            self.packets.append((self.time + 0.004, head + frame))
        return len(self.packets)

    def send(self, node, to, content, **how):
        """Adds a NWK frame."""
        return self.put(self.nwk(node, to, content, **how), node, to)

    def pcap(self):
        """Returns the capture as a pcap of link type 230."""
        out = struct.pack('<IHHIIII', 0xA1B2C3D4, 2, 4, 0, 0, 65535, 230)
        for at, packet in self.packets:
            out += struct.pack('<IIII', int(at), int(at % 1 * 1000000), len(packet), len(packet)) + packet
        return out

    def known(self):
        """Returns the keys that whoever watches knows, in digits."""
        return [it.hex().upper() for it in [*self.keys, *(node.link for node in self.nodes)]]

    # ---- what a network does

    def network_key_for(self, node):
        euis = struct.pack('<QQ', node.eui, self.centre.eui)
        return bytes([5, 1]) + self.key + bytes([self.number]) + euis

    def join(self, node):
        """The network key comes under the link key of the install code; then the device asks for its own."""
        content = self.aps(self.centre, self.network_key_for(node), node.link, TRANSPORT)
        self.send(self.centre, node.short, content, is_secured=False)
        self.ask(node)
        self.answer(node)

    def ask(self, node):
        return self.send(node, 0, self.aps(node, bytes([8, 4]), node.link))

    def link_key_for(self, node):
        return bytes([5, 4]) + self.bytes_of(16) + struct.pack('<QQ', node.eui, self.centre.eui)

    def answer(self, node):
        return self.send(self.centre, node.short, self.aps(self.centre, self.link_key_for(node), node.link, LOAD))

    def talk(self, count, nodes=None):
        """Nodes report, and now and then one starts again further on, or tells its links."""
        for _ in range(count):
            node = self.random.choice(nodes or self.nodes)
            if self.random.random() < 0.1:
                node.nwk += 1024
            if self.random.random() < 0.2:
                self.send(node, 0xFFFC, b'\x08\x60', kind=1)
            else:
                self.send(node, 0, self.application(node))

    def roll(self):
        """A new network key goes out under the old one, and all switch to it."""
        old = self.key, self.number
        self.key, self.number = self.bytes_of(16), (self.number + 1) % 256
        self.keys.append(self.key)
        content = bytes([5, 1]) + self.key + bytes([self.number]) + bytes(8) + struct.pack('<Q', self.centre.eui)
        self.send(self.centre, ALL, self.aps(self.centre, content), key=old)
        self.send(self.centre, ALL, self.aps(self.centre, bytes([9, self.number])), key=old)
        return old

    def remove(self, node):
        """The centre removes a device by its parent, another node."""
        parent = next(it for it in self.nodes if it is not node)
        content = self.aps(self.centre, bytes([7]) + struct.pack('<Q', node.eui), parent.link)
        self.send(self.centre, parent.short, content)

    def rejoin(self, node):
        """A device comes back: it asks in clear, and gets the network key under its link key."""
        self.send(node, 0, b'\x06\x80', kind=1, is_secured=False)
        content = self.aps(self.centre, self.network_key_for(node), node.link, TRANSPORT)
        self.send(self.centre, node.short, content, is_secured=False)


def lived(seed):
    """Returns a network in which all is as it should be."""
    network = Network(seed)
    for node in network.nodes:
        network.join(node)
    network.talk(10)
    if seed % 2:
        network.roll()
        network.talk(6)
    if seed % 3 == 0:
        network.rejoin(network.nodes[3])
    if seed % 4 == 0:
        network.remove(network.nodes[2])
        network.talk(6, network.nodes[:2])
    return network


# ---- faults: each returns the kind of the finding and the number of its last packet, none if the end shows it


def nonce_twice(network):
    node = network.nodes[0]
    counter = last(network, node)
    return 'nonce-twice', network.send(node, 0, network.application(node), counter=counter)


def last(network, node):
    """Returns a counter that a node used just now."""
    counter = node.nwk
    network.send(node, 0, network.application(node), counter=counter)
    node.nwk += 1
    return counter


def nonce_twice_at_aps(network):
    node, counter = network.nodes[1], network.nodes[1].aps
    network.send(node, 0, network.aps(node, bytes([15, 4]) + network.bytes_of(24), node.link))
    content = bytes([15, 4]) + network.bytes_of(24)
    return 'nonce-twice', network.send(node, 0, network.aps(node, content, node.link, counter=counter))


def counter_back(network):
    node = network.nodes[0]
    node.nwk += 5000
    last(network, node)
    node.nwk -= 3000
    return 'counter-back', network.send(node, 0, network.application(node))


def replay(network):
    node = network.nodes[0]
    frame = network.nwk(node, 0, network.application(node))
    network.put(frame, node, 0)
    network.talk(3, network.nodes[1:2])
    return 'replay', network.put(frame, node, 0, LATE)


def key_under_well_known(network):
    node = network.nodes[0]
    content = network.aps(network.centre, network.network_key_for(node), WELL_KNOWN, TRANSPORT)
    return 'key-under-well-known', network.send(network.centre, node.short, content, is_secured=False)


def link_key_under_well_known(network):
    node = network.nodes[1]
    content = network.aps(network.centre, network.link_key_for(node), WELL_KNOWN, LOAD)
    return 'key-under-well-known', network.send(network.centre, node.short, content)


def key_in_clear(network):
    node = network.nodes[0]
    content = network.aps(network.centre, network.network_key_for(node))
    return 'key-in-clear', network.send(network.centre, node.short, content, is_secured=False)


def link_key_under_network_key(network):
    node = network.nodes[1]
    content = network.aps(network.centre, network.link_key_for(node))
    return 'key-under-network-key', network.send(network.centre, node.short, content)


def old_network_key(network):
    old, node = network.roll(), network.nodes[0]
    network.time += LATE
    return 'old-network-key', network.send(node, 0, network.application(node), key=old)


def removed_heard(network):
    node = network.nodes[0]
    network.remove(node)
    network.time += LATE
    return 'removed-heard', network.send(node, 0, network.application(node))


def request_unanswered(network):
    number = network.ask(network.nodes[0])
    network.time += LATE
    network.talk(2, network.nodes[1:2])
    return 'request-unanswered', number


def unsecured(network):
    node = network.nodes[0]
    return 'unsecured', network.send(node, 0, network.application(node), is_secured=False)


FAULTS = [
    nonce_twice,
    nonce_twice_at_aps,
    counter_back,
    replay,
    key_under_well_known,
    link_key_under_well_known,
    key_in_clear,
    link_key_under_network_key,
    old_network_key,
    removed_heard,
    request_unanswered,
    unsecured,
]
