"""Makes captures for the tests: the packets of a capture in tools/data once more, in each link type that sniffers
write.

mixed.pcap and two-pans.pcap were made by a program of another author's crypto. mixed.pcap has, by the number of the
packet: 1, 3, 5 MAC commands; 2 a beacon; 4 an acknowledgement; 6 a Transport-Key under the link key; 7 to 17 frames
under its network key, of which 13 is sealed under the link key too, without a source; 18 to 21 levels 6, 7, 1, 4; 22
Green Power; 23 inter-PAN; 24 security at the MAC; 25 a 2015 frame; 26 another network; 27 a Transport-Key under the
well-known key; 28 a second network key, and 29 a frame under it; 30 is 11. two-pans.pcap has two networks with one
short address, which in one of them is another device's later; and packet 7, of whose sender packet 8 tells the
EUI."""
import os
import struct
import subprocess

from gabzetu import TOP
from gabzetu.formats.packets import import_scapy

CODE, LINK = '83FED3407A939723A5C639B26916D505C3B5', '66B6900981E1EE3CA4206B6B861C02BB'
MAGIC, MODIFIED = 0xA1B2C3D4, 0xA1B2CD34


def data(name):
    return os.path.join(TOP, 'tools', 'data', name)


def packets_of(name):
    """Returns the packets of a pcap in tools/data."""
    with open(data(name), 'rb') as file:
        content = file.read()
    at, packets = 24, []
    while at < len(content):
        size = struct.unpack_from('<I', content, at + 8)[0]
        packets.append(content[at + 16 : at + 16 + size])
        at += 16 + size
    return packets


def check_of(packet):
    """Returns the check sequence, worked out as scapy does."""
    import_scapy()
    from scapy.layers.dot15d4 import Dot15d4FCS

    return Dot15d4FCS().compute_fcs(packet)


def with_check(packet):
    return packet + check_of(packet)


def tap(packet):
    """Returns a packet with its check sequence behind a TAP header."""
    entries = struct.pack('<HHI', 0, 1, 1) + struct.pack('<HHf', 1, 4, -50.0)
    return struct.pack('<BBH', 0, 0, 4 + len(entries)) + entries + with_check(packet)


def zep(packet, version=2, mode=1, last=None):
    """Returns a ZEP packet. Its last two bytes are the check sequence in mode 1, else those of a chip."""
    body = packet + (last or check_of(packet))
    if version == 1:
        return b'EX\x01\x0f\0\x01' + bytes([mode]) + b'\xff' + bytes(7) + bytes([len(body)]) + body
    return b'EX\x02\x01\x0f\0\x01' + bytes([mode, 255]) + bytes(22) + bytes([len(body)]) + body


def udp(payload, port=17754, ip=4):
    """Returns an IP packet with a UDP payload, as scapy builds it."""
    import_scapy()
    from scapy.layers.inet import IP, UDP
    from scapy.layers.inet6 import IPv6
    from scapy.packet import Raw

    around = IP(src='10.0.0.1', dst='10.0.0.2') if ip == 4 else IPv6(src='fe80::1', dst='fe80::2')
    return bytes(around / UDP(sport=4000, dport=port) / Raw(payload))


def phy(packet):
    return bytes(4) + bytes([0xA7, len(packet) + 2]) + with_check(packet)


def pcap(link, packets, order='<'):
    """Returns the bytes of a pcap, packets a second apart."""
    out = struct.pack(order + 'IHHIIII', MAGIC, 2, 4, 0, 0, 65535, link)
    return out + b''.join(
        struct.pack(order + 'IIII', 1700000000 + at, 0, len(it), len(it)) + it for at, it in enumerate(packets)
    )


def modified(link, packets, order='<'):
    """Returns the bytes of a modified pcap: each record has 8 more bytes, of an interface and a protocol."""
    out = struct.pack(order + 'IHHIIII', MODIFIED, 2, 4, 0, 0, 65535, link)
    return out + b''.join(
        struct.pack(order + 'IIIIIHBB', 1700000000 + at, 0, len(it), len(it), 2, 0x0809, 0, 0) + it
        for at, it in enumerate(packets)
    )


def daintree(packets):
    """Returns the bytes of a capture of Daintree: two lines of comment, and a line for each packet."""
    rows = [
        f'{at + 1} {1700000000 + at}.000000 {len(it) + 2} {(it + bytes([255, 255])).hex()} 208 1 -46 11 1 {at} 32767'
        for at, it in enumerate(packets)
    ]
    return '\r\n'.join(['#Format=4', '# SNA v2.2.0.4 SUS:20070326 ACT:819705', *rows, '']).encode('ascii')


def block(kind, body, order='<'):
    body += bytes(-len(body) % 4)
    return struct.pack(order + 'II', kind, len(body) + 12) + body + struct.pack(order + 'I', len(body) + 12)


def pcapng(link, packets):
    """Returns the bytes of a pcapng with a section, an interface and a block for each packet."""
    out = block(0x0A0D0D0A, struct.pack('<IHHq', 0x1A2B3C4D, 1, 0, -1)) + block(1, struct.pack('<HHI', link, 0, 0))
    times = [(1700000000 + at) * 1000000 for at in range(len(packets))]
    return out + b''.join(
        block(6, struct.pack('<5I', 0, time >> 32, time & 0xFFFFFFFF, len(it), len(it)) + it)
        for time, it in zip(times, packets)
    )


def pcapng_of(kind, packets):
    """Returns the bytes of a pcapng whose packets are in blocks of a kind, or of interfaces of several link types."""
    order = '>' if kind == 'big-endian' else '<'
    ether = bytes(12) + b'\x08\0'
    wraps = [(230, bytes)]
    if kind == 'several interfaces':
        wraps += [(195, with_check), (283, tap), (1, lambda it: ether + udp(zep(it)))]
    out = block(0x0A0D0D0A, struct.pack(order + 'IHHq', 0x1A2B3C4D, 1, 0, -1), order)
    out += b''.join(block(1, struct.pack(order + 'HHI', link, 0, 0), order) for link, _ in wraps)
    for at, packet in enumerate(packets):
        place = at % len(wraps)
        body = wraps[place][1](packet)
        sizes = (len(body), len(body))
        if kind == 'simple':
            out += block(3, struct.pack(order + 'I', len(body)) + body, order)
        elif kind == 'old':
            out += block(2, struct.pack(order + 'HH4I', place, 0, 0, at, *sizes) + body, order)
        else:
            out += block(6, struct.pack(order + '5I', place, 0, at, *sizes) + body, order)
    return out + block(5, struct.pack(order + '3I', 0, 0, 0), order)


def every_link(packets):
    """Returns captures of the packets by name, each with the options that tshark needs to read it as we do."""
    ether = bytes(12) + b'\x08\0'
    lone = [zep(it) for it in packets]
    chip = [it + bytes([0xD0, 0x80 | 100]) for it in packets]
    user = ['-o', 'uat:user_dlts:"User 0 (DLT=147)","wpan","0","","0",""']
    port = ['-d', 'udp.port==17755,zep']
    return {
        '195': (pcap(195, map(with_check, packets)), []),
        '195 of the other byte order': (pcap(195, map(with_check, packets), '>'), []),
        '230': (pcap(230, packets), []),
        '283': (pcap(283, map(tap, packets)), []),
        '215': (pcap(215, map(phy, packets)), []),
        '147': (pcap(147, map(with_check, packets)), user),
        'modified pcap of 195': (modified(195, list(map(with_check, packets))), []),
        'modified pcap of 230, other byte order': (modified(230, packets, '>'), []),
        'Daintree': (daintree(packets), []),
        'pcapng of 195': (pcapng(195, list(map(with_check, packets))), []),
        'pcapng of 230': (pcapng(230, packets), []),
        '1, ZEP': (pcap(1, [ether + udp(it) for it in lone]), []),
        '1, ZEP version 1': (pcap(1, [ether + udp(zep(it, 1)) for it in packets]), []),
        '1, ZEP in a VLAN': (pcap(1, [bytes(12) + b'\x81\0\0\x05\x08\0' + udp(it) for it in lone]), []),
        '1, ZEP over IPv6': (pcap(1, [bytes(12) + b'\x86\xdd' + udp(it, ip=6) for it in lone]), []),
        '1, ZEP of a chip': (pcap(1, [ether + udp(zep(it, mode=0, last=b'\xd0\xe4')) for it in packets]), []),
        '1, ZEP of another port': (pcap(1, [ether + udp(it, 17755) for it in lone]), port),
        '0, ZEP': (pcap(0, [struct.pack('<I', 2) + udp(it) for it in lone]), []),
        '0, ZEP over IPv6': (pcap(0, [struct.pack('<I', 30) + udp(it, ip=6) for it in lone]), []),
        '108, ZEP': (pcap(108, [struct.pack('>I', 2) + udp(it) for it in lone]), []),
        '12, ZEP': (pcap(12, [udp(it) for it in lone]), []),
        '14, ZEP': (pcap(14, [udp(it) for it in lone]), []),
        '101, ZEP': (pcap(101, [udp(it) for it in lone]), []),
        '101, ZEP over IPv6': (pcap(101, [udp(it, ip=6) for it in lone]), []),
        '192, PPI': (pcap(192, [struct.pack('<BBHI', 0, 0, 8, 195) + with_check(it) for it in packets]), []),
        '228, ZEP': (pcap(228, [udp(it) for it in lone]), []),
        '229, ZEP': (pcap(229, [udp(it, ip=6) for it in lone]), []),
        '113, ZEP': (pcap(113, [b'\0\0\x03\x04\0\x06' + bytes(8) + b'\x08\0' + udp(it) for it in lone]), []),
        '276, ZEP': (pcap(276, [b'\x08\0\0\0\0\0\0\x01\x03\x04\0\x06' + bytes(8) + udp(it) for it in lone]), []),
        "195 with a chip's words": (pcap(195, chip), ['-o', 'wpan.fcs_format:TI CC24xx metadata']),
        '195 with zeros': (pcap(195, [it + b'\0\0' for it in packets]), ['-o', 'wpan.802154_fcs_ok:FALSE']),
        '195 without check sequences': (pcap(195, packets), None),
        '230 with check sequences': (pcap(230, map(with_check, packets)), None),
    }


def opened_by_tshark(path, keys, options):
    """Returns the keys of the layers that tshark decrypts, by the number of the packet.

    It finds no settings of the user, which may name further keys."""
    folder = os.path.dirname(path)
    command = ['tshark', '-r', path, *options]
    for key in keys:
        command += ['-o', f'uat:zigbee_pc_keys:"{key}","Normal","k"']
    fields = [word for field in ('frame.number', 'zbee.sec.key') for word in ('-e', field)]
    environment = {**os.environ, 'WIRESHARK_CONFIG_DIR': folder}
    ran = subprocess.run(
        [*command, '-T', 'fields', *fields], capture_output=True, text=True, env=environment, check=True
    )
    rows = [line.split('\t') for line in ran.stdout.splitlines()]
    return {int(number): tuple(keys.replace(':', '').upper().split(',')) for number, keys in rows if keys}
