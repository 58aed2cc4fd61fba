"""Runs the gate over a commit and seals its log, and reads such a log again.

The log names the commit and the check sums of the programs that this gate built. Its last line is a seal: a keyed hash
of the other lines. The key is made once in each clone, and only its owner can read it. So a log that was typed, or
edited, or that another clone wrote, is refused."""
import hashlib
import hmac
import os
import re
import secrets
import subprocess
from typing import Dict, List

from gabzetu import TOP
from gabzetu.errors import WRONG_INPUT, Stop
from gabzetu.output import read_input, say

GATES = os.path.join(TOP, 'out', 'gate')
KEY = os.path.join(GATES, 'key')
PASSED = re.compile(r'[0-9]+ passed, 0 failed')
COUNTED = re.compile(r'[0-9]+ passed, [0-9]+ failed.*')
OK = 'rt: ok; '
TOOLS = 'tools/test: '
HOW = 'Run the gate: tools/release VERSION --run'
COMMIT, SUM, SEAL = 'release: gate of commit ', 'release: sha256 of ', 'release: seal '
RUN = os.path.join('.ci', 'run')
NO_KEY = bytes(32)


def read_key() -> bytes:
    """Returns the key of this clone, or zeros if no gate was run in it."""
    return read_input(KEY) if os.path.exists(KEY) else NO_KEY


def make_key() -> bytes:
    """Returns the key of this clone, which is made if there is none."""
    if not os.path.exists(KEY):
        os.makedirs(GATES, exist_ok=True)
        handle = os.open(KEY, os.O_WRONLY | os.O_CREAT | os.O_EXCL, 0o600)
        with os.fdopen(handle, 'wb') as file:
            file.write(secrets.token_bytes(32))
    return read_key()


def seal_of(lines: List[str], key: bytes) -> str:
    """Returns the line that seals the lines of a log."""
    text = ''.join(f'{line}\n' for line in lines).encode('utf-8', 'backslashreplace')
    return SEAL + hmac.new(key, text, hashlib.sha256).hexdigest()


def open_log(path: str) -> List[str]:
    """Returns the lines of a log without its seal. Stops unless this clone sealed it."""
    lines = read_input(path).decode('utf-8', 'backslashreplace').splitlines()
    key = read_key()
    if key == NO_KEY or not lines or not hmac.compare_digest(seal_of(lines[:-1], key), lines[-1]):
        why = 'this log has no seal of this clone: it was typed, edited, or written elsewhere'
        raise Stop(f'{path}: {why}. {HOW}', WRONG_INPUT)
    return lines[:-1]


def read_gate(path: str, log: List[str]) -> List[str]:
    """Returns the last lines of a gate's log, from `rt: ok` on. Stops where the log isn't that of a passed gate."""
    lines = [it.rstrip() for it in log if it.strip()]
    counts = [place for place, line in enumerate(lines) if COUNTED.fullmatch(line)]
    if not counts:
        raise Stop(f"{path}: no line 'N passed, 0 failed': the gate did not come to its end. {HOW}", WRONG_INPUT)
    at = counts[-1]
    if not PASSED.fullmatch(lines[at]):
        raise Stop(f"{path}: '{lines[at]}': this gate is not passed. {HOW}", WRONG_INPUT)
    if not at or not lines[at - 1].startswith(OK):
        raise Stop(f"{path}: no line '{OK}..' before '{lines[at]}', as `rt ci` writes it. {HOW}", WRONG_INPUT)
    check_tools(path, lines[at + 1 :])
    return lines[at - 1 :]


def sum_lines(programs: Dict[str, bytes]) -> List[str]:
    """Returns a line for each program with its check sum, as the log of a gate has them."""
    return [f'{SUM}{name}: {hashlib.sha256(data).hexdigest()}' for name, data in sorted(programs.items())]


def run_gate() -> List[str]:
    """Runs the gate of this clone, prints what it prints, and returns these lines. Stops if the gate fails."""
    lines = []
    with subprocess.Popen([RUN], cwd=TOP, stdout=subprocess.PIPE, stderr=subprocess.STDOUT) as gate:
        for line in gate.stdout or ():
            lines.append(line.decode('utf-8', 'backslashreplace').rstrip('\r\n'))
            say(lines[-1])
    if gate.returncode:
        raise Stop(f'{RUN} ended with status {gate.returncode}, so there is nothing to release', WRONG_INPUT)
    return lines


def write_log(path: str, commit: str, built: Dict[str, bytes], lines: List[str]) -> None:
    """Writes the sealed log of a gate: the commit, the check sums of the programs that it built, and its lines."""
    lines = [f'{COMMIT}{commit}', *sum_lines(built), *(part for line in lines for part in line.splitlines())]
    os.makedirs(os.path.dirname(path), exist_ok=True)
    with open(path, 'w', encoding='utf-8', errors='backslashreplace') as file:
        file.write('\n'.join([*lines, seal_of(lines, make_key()), '']))


def check_bound(path: str, lines: List[str], commit: str, programs: Dict[str, bytes]) -> None:
    """Stops if a log is of another commit, or of other programs than those that are released."""
    commits = [it for it in lines if it.startswith(COMMIT)]
    if commits != [f'{COMMIT}{commit}']:
        found = commits[0][len(COMMIT) :] if commits else 'no commit'
        raise Stop(f'{path}: this gate is of {found}, and the release of {commit}. {HOW}', WRONG_INPUT)
    missing = [it for it in sum_lines(programs) if it not in lines]
    if missing:
        name = missing[0][len(SUM) :].partition(':')[0]
        raise Stop(f'{path}: this gate is not of the program {name} that is to be released. {HOW}', WRONG_INPUT)


def check_tools(path: str, lines: List[str]) -> None:
    """Stops where one of the steps after `rt ci` failed. A log of `rt ci` alone has no such lines."""
    failed = [it for it in lines if it.startswith(TOOLS) and it.endswith(': failed')]
    if failed:
        raise Stop(f"{path}: '{failed[0]}': mend it, and run the gate again", WRONG_INPUT)
    if lines and not lines[-1].startswith(TOOLS):
        why = "is the last line, and not one of tools/test: a step after `rt ci` failed"
        raise Stop(f"{path}: '{lines[-1]}' {why}", WRONG_INPUT)
