"""What each cause of `refused LINE CAUSE` means, by the kind of input. docs/FORMATS.md has the exact rules."""

SCHEDULE = {
    'syntax': 'the line is no declaration and no event, or it is a declaration after an event',
    'duplicate-node': (
        'the name, EUI or short address is taken, there is a second centre, or a second code, netkey or counter of '
        'the same layer for one node'
    ),
    'bad-code': 'the digits are no install code: their number or the CRC in the last two bytes is wrong',
    'duplicate-code': (
        "the code's link key is that of another node's code, of an earlier netkey or draw, or the well-known key"
    ),
    'draw-repeated': 'the key is that of an earlier draw, netkey or code, or the well-known key',
    'unknown-node': (
        'a node of the line is not declared before it, has a role that the line does not allow, or is its own parent'
    ),
    'block': 'OUT is not 1 to 65536, or IN is not 1 to 1024',
    'too-many': 'it is the 65th node or the 100,001st event',
    'no-centre': 'no line is wrong, and none declares a centre',
}

CAPTURE = {
    'syntax': 'the line is none of `key KEY`, `code HEX`, `addr SHORT EUI` and `frame HEX` with 1 to 127 bytes',
    'bad-code': 'the digits are no install code: their number or the CRC in the last two bytes is wrong',
    'too-many': 'it is the 257th key or code, or the 100,001st frame',
    'address-taken': 'an earlier addr line has this short address',
}

SCRIPT = {
    'syntax': (
        'the line is no command, or it is in the wrong place: the first line is the centre, then come its peers, '
        'then the commands'
    ),
    'duplicate-node': 'the name, EUI or short address is taken',
    'bad-code': 'the digits are no install code: their number or the CRC in the last two bytes is wrong',
    'unknown-node': (
        'a node of the line is not declared before it, has a role that the line does not allow, or is its own parent'
    ),
    'block': 'OUT is not 1 to 65536, or IN is not 1 to 1024',
    'backup': 'the text after SKIP is no backup, as docs/BACKUP.md describes it',
    'too-many': 'it is the 64th peer or the 10,001st command',
    'no-centre': 'no line is wrong, and none is the centre',
}

PCAP = {
    'magic': 'the file does not begin as a pcap file does (a pcapng file begins otherwise)',
    'version': 'the version of the pcap file is not 2.4',
    'link': 'the link type is neither 195 (802.15.4 with check sequence) nor 230 (without)',
    'cut': 'the file ends within this packet',
    'too-many': 'a file may have 100,000 packets',
}

TRANSCRIPT = {
    'syntax': (
        'the line is no line of a transcript, or not in the exact text that tc writes: single spaces, upper-case '
        'digits, numbers without leading zeros, a line feed at the end'
    ),
}

# `{0}` and `{1}` are the words after the cause.
CODE = {
    'not-hex': 'character {0} (counted from 0) is no hexadecimal digit, or the number of digits is odd',
    'length': 'it has {0} byte(s), and a code with its CRC has 8, 10, 14 or 18',
    'crc': 'its last two bytes are the CRC {0}, and the CRC of the bytes before is {1} (low byte first in the code)',
}

CAUSES = {
    'schedule': SCHEDULE,
    'capture': CAPTURE,
    'script': SCRIPT,
    'pcap': PCAP,
    'transcript': TRANSCRIPT,
    'code': CODE,
    'made': SCHEDULE,
}

# The claims of an audit, each as the sentence that holds where nothing breaks it.
CLAIMS = {
    1: 'no nonce (source, counter, control) is used twice under one sealing key',
    2: 'no node accepts from one source, under one key, a counter that is not above the last one',
    3: "only the centre confirms a link key, and only after it stored that device's key as verified",
    4: (
        'counters, limits and floors add up: each is the next one, is reserved before it is used, and is stored '
        'before it counts'
    ),
    5: (
        'where the end line says `yes yes`, removed devices are locked out: they get no later key, and nothing of '
        'theirs is accepted'
    ),
    6: 'there is one end line, it is the last line, and its counts and its two words are right',
}
