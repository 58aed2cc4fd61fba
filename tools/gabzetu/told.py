"""What a status of tc and the line that it writes mean, in plain words."""
import signal
from typing import List, Optional

from .formats.causes import CAUSES, CLAIMS
from .output import shown

# Where each format is described: what `gabzetu help` knows, and the page.
FORMATS = {
    'schedule': 'The lines of a schedule: gabzetu help schedule',
    'transcript': 'The lines of a transcript: gabzetu help transcript',
    'capture': 'The lines of a capture: gabzetu help capture',
    'pcap': 'What a capture file is: docs/FORMATS.md, "Capture files". `gabzetu open` reads other kinds',
    'script': 'The lines of a script: gabzetu help script',
    'code': 'An install code is 6, 8, 12 or 16 bytes and their CRC of 2 bytes, as hexadecimal digits',
    'made': 'Made schedules: docs/FORMATS.md, "Made schedules"',
}

STATUSES = {
    2: 'tc does not take these words',
    3: 'the input could not be read to its end',
    4: 'the output could not be written to its end',
    6: 'tc is out of memory',
    7: 'the store could not be read or written. What came out as `ok` is stored; run the rest of the script again',
    8: 'there is no store in this file: no slot of it is open. The file is as it was',
    9: 'the input is longer than 16,777,216 bytes, and tc reads no more than that',
    11: 'the store holds no record of a centre; the number is the place of the fault. The file is as it was',
    12: 'the store is worn: its generation is at its end, and nothing more can be stored in it',
    13: 'another process has the store open. The file is as it was; run it again when that process has ended',
}


def last_words(output: bytes) -> List[str]:
    """Returns the words of the last line that tc wrote."""
    lines = output.decode('ascii', 'replace').splitlines()
    return lines[-1].split() if lines else []


def sentence_of(kind: str, cause: str) -> str:
    """Returns what a cause of refusal means for an input of this kind."""
    known = CAUSES.get(kind, {})
    return known.get(cause) or f'the cause is {cause}'


def refusal(kind: str, name: str, words: List[str]) -> str:
    """Returns the words on `refused LINE CAUSE` for an input of this kind, whose name comes first."""
    line, cause, detail = words[1], words[2] if len(words) > 2 else '', words[3:]
    if kind == 'code':
        return f'{name}: refused: {sentence_of(kind, cause).format(*detail)}. {FORMATS[kind]}.'
    place = f'packet {line}' if kind == 'pcap' and line != '0' else 'the header' if kind == 'pcap' else f'line {line}'
    return f'{name}: refused at {place}: {cause}: {sentence_of(kind, cause)}. {FORMATS[kind]}.'


def fault_of(kind: str, name: str, status: int, output: bytes) -> Optional[str]:
    """Returns what a status other than 0 means, for an input of this kind and name; none of the status 0."""
    words = last_words(output)
    if status == 0:
        return None
    if status < 0:
        return f'{name}: tc was ended by {signal.Signals(-status).name}'
    if status == 5 and len(words) > 2:
        return refusal(kind, name, words)
    if status == 10 and len(words) == 3:
        return f'{name}: line {words[1]} breaks claim {words[2]}: {CLAIMS.get(int(words[2]), "")}.'
    told = ' '.join(words)
    return f'{name}: {told}: {STATUSES.get(status, f"tc ended with status {status}")}.'


def exit_status(status: int) -> int:
    """Returns a status of tc as an exit status: of a signal 128 and its number, as shells do."""
    return 128 - status if status < 0 else status


def base_name(path: str) -> str:
    """Returns how an input is named in messages: as it was given, with escapes for what isn't printed."""
    return 'standard input' if path == '-' else shown(path)
