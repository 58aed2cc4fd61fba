"""gabzetu campaigns: any number of made runs, or a folder of captures, by GNU parallel."""
import argparse
import os
import re
import shlex
import subprocess
import sys
from typing import List, Sequence, Tuple

from .. import encoded
from ..errors import MISSING, UNREADABLE, WRONG_USE, Stop, reason_of
from ..formats.made import MASK, MOST, made
from ..output import shown, write_output
from ..program import find_tc
from .open import add_keys, read_ring

SUMMARY = 'play many made runs, or open a folder of captures, on all processors'
DESCRIPTION = '''Plays any number of made runs, or opens each capture of a folder, by GNU parallel.

  gabzetu campaigns runs COUNT START RESULTS   plays COUNT made schedules from START on, a thousand a call of tc
  gabzetu campaigns captures FOLDER RESULTS    opens each file of FOLDER with the keys, as `gabzetu open` does, and
                                               text captures as `gabzetu inspect` does. In the names of the results
                                               %, quotes and what isn't printed are % and two digits
  gabzetu campaigns schedule START N           writes the made schedule of START for N routers and devices

The calls may go on other machines, by parallel's option --sshlogin, which have the same programs and files in the
same places. The folder RESULTS gets what each call wrote, and the log of the jobs. After a break the same words go on
where it stopped; calls that failed are tried again. At the end the totals of all calls are added up, or the reports
counted, and the first run that ended with `no` is named, with its schedule in RESULTS/first.sched, or the first call
that ended with another status than 0.

The status is 0 where there is none, 1 where there is one, and another where the calls couldn't be made.'''

SHARE = 1000
NUMBERS = ('COUNT', 'START', 'N')
LAST = MASK + 1
# No path of a file has two slashes in a row, so they separate the columns of a row.
BETWEEN = '//'
PRIVATE = 0o077
CAPTURES = (b'\xa1\xb2\xc3\xd4', b'\xd4\xc3\xb2\xa1', b'\xa1\xb2\x3c\x4d', b'\x4d\x3c\xb2\xa1', b'\n\r\r\n')


def add_arguments(parser: argparse.ArgumentParser) -> None:
    """Adds the words of the command."""
    parser.add_argument('kind', choices=list(KINDS), help='what is done')
    parser.add_argument('words', metavar='WORD', nargs='+', help='the words of that kind, as above')
    add_keys(parser)
    parser.add_argument('-j', '--jobs', metavar='JOBS', help='how many calls go on at once (one for each processor)')
    parser.add_argument(
        '--parallel',
        metavar='WORDS',
        action='append',
        default=[],
        help="further options of parallel: --parallel='--bar --sshlogin other'",
    )


def words_of(arguments: argparse.Namespace, names: str) -> list:
    """Returns the words of a kind, those with a number as such. Stops where they are others."""
    wanted = names.split()
    if len(arguments.words) != len(wanted):
        raise Stop(f'campaigns {arguments.kind} takes {" ".join(wanted)}', WRONG_USE)
    wrong = [
        word for name, word in zip(wanted, arguments.words) if name in NUMBERS and not re.fullmatch('[0-9]{1,10}', word)
    ]
    if wrong:
        raise Stop(f'campaigns {arguments.kind} takes {" ".join(wanted)}, and {wrong[0]!r} is no number', WRONG_USE)
    return [int(word) if name in NUMBERS else word for name, word in zip(wanted, arguments.words)]


def run(arguments: argparse.Namespace) -> int:
    """Runs the command, and returns the exit status."""
    try:
        return KINDS[arguments.kind](arguments)
    except OSError as error:
        raise Stop(f'{error.filename}: {reason_of(error)}', UNREADABLE) from error
    except ValueError as error:
        raise Stop(f'an answer is not of the known form: {error}', UNREADABLE) from error


def do_schedule(arguments: argparse.Namespace) -> int:
    """Writes a made schedule."""
    start, count = words_of(arguments, 'START N')
    if start > MASK or not 1 <= count <= MOST:
        raise Stop(f'START is 0 to {MASK}, and N is 1 to {MOST}', WRONG_USE)
    write_output('-', ''.join(f'{line}\n' for line in made(start, count)))
    return 0


def shares_of(count: int, start: int) -> List[Tuple[int, int]]:
    """Returns how many runs each call plays, and its start value. Its runs are numbered from 0, so their sizes are 1
    to 8 in turn."""
    return [(min(SHARE, count - done), start + done) for done in range(0, count, SHARE)]


def check_work(results: str, words: str) -> None:
    """Keeps what the folder is for, and stops where it was begun for something else."""
    os.makedirs(results, exist_ok=True)
    name = os.path.join(results, 'words')
    if not os.path.exists(name):
        with open(name, 'w', encoding='utf-8') as file:
            file.write(f'{words}\n')
    with open(name, encoding='utf-8') as file:
        if file.read() != f'{words}\n':
            raise Stop(f'{results} was begun for other work: give another folder, or remove it', WRONG_USE)


def options_of(arguments: argparse.Namespace) -> List[str]:
    """Returns the options for parallel."""
    jobs = ['--jobs', arguments.jobs] if arguments.jobs else []
    return jobs + [word for words in arguments.parallel for word in shlex.split(words)]


def call_all(results: str, options: List[str], command: str, columns: Sequence[tuple]) -> List[int]:
    """Has parallel make a call for each row of columns, and returns how each ended. What it writes comes into the
    file of the row's last column."""
    words = ['parallel', '--will-cite', '--joblog', f'{results}/jobs', '--resume-failed', '--colsep', BETWEEN]
    words += ['--results', f'{results}/calls/{{{len(columns[0])}/}}', *options, command]
    rows = ''.join(BETWEEN.join(map(str, row)) + '\n' for row in columns)
    try:
        subprocess.run(words, input=rows, text=True, encoding='utf-8', stdout=subprocess.DEVNULL, check=False)
    except FileNotFoundError as error:
        raise Stop('parallel is missing (Debian: apt install parallel)', MISSING) from error
    return statuses_of(results, len(columns))


def statuses_of(results: str, count: int) -> List[int]:
    """Returns how each call ended by the log: by a status, or by a signal as 128 and its number. A later try
    counts."""
    statuses = {}
    with open(f'{results}/jobs', encoding='utf-8', errors='replace') as file:
        for words in [line.split('\t') for line in file.readlines()[1:]]:
            statuses[int(words[0])] = int(words[6]) or (128 + int(words[7]) if int(words[7]) else 0)
    missing = [number for number in range(1, count + 1) if number not in statuses]
    if missing:
        raise Stop(f'{len(missing)} of {count} calls were not made: the same words go on there', UNREADABLE)
    return [statuses[number] for number in range(1, count + 1)]


def read_campaign(name: str, count: int) -> tuple:
    """Returns the three sums of a campaign's total, and the first of its runs that ended with `no`."""
    with open(name, encoding='ascii') as file:
        lines = [line.split() for line in file]
    numbers = [str(number) for number in range(count)]
    if [words[0] for words in lines[:-1]] != numbers or lines[-1][:2] != ['total', str(count)]:
        raise Stop(f'{name} is no campaign of {count} runs', UNREADABLE)
    bad = [number for number, words in enumerate(lines[:-1]) if words[-2:] != ['yes', 'yes']]
    return [int(word) for word in lines[-1][2:]], bad[0] if bad else None


def name_run(results: str, runs: int, start: int, number: int) -> None:
    """Writes the schedule of a run, and says which one it is."""
    write_output(f'{results}/first.sched', ''.join(f'{line}\n' for line in made(start + number, 1 + number % 8)))
    print(
        f'the first run that ended with no: run {number} of campaign {runs} {start}, '
        f'made of {start + number} for {1 + number % 8}, in {results}/first.sched'
    )


def do_runs(arguments: argparse.Namespace) -> int:
    """Plays made schedules in calls of `tc campaign`, and adds up their totals."""
    count, start, results = words_of(arguments, 'COUNT START RESULTS')
    if count < 1 or start + count > LAST:
        raise Stop(f'no {count} start values from {start} on: they are 0 to {LAST - 1}', WRONG_USE)
    check_work(results, f'runs {count} {start}')
    shares = shares_of(count, start)
    statuses = call_all(results, options_of(arguments), f'{shlex.quote(find_tc())} campaign {{1}} {{2}} 1', shares)
    sums, played, first = [0, 0, 0], 0, None
    for (runs, begin), status in zip(shares, statuses):
        if status:
            first = first or ('call', runs, begin, status)
            continue
        added, bad = read_campaign(f'{results}/calls/{begin}', runs)
        sums, played = [one + other for one, other in zip(sums, added)], played + runs
        first = first or (('run', runs, begin, bad) if bad is not None else None)
    print('total', played, *sums)
    if first and first[0] == 'run':
        name_run(results, *first[1:])
    elif first:
        print(f'the first call that failed: campaign {first[1]} {first[2]} ended with status {first[3]}')
    return 1 if first else 0


def command_for(path: str) -> str:
    """Returns the command that reads a file: `open` for a capture of packets, also one packed by gzip, else
    `inspect`."""
    with open(path, 'rb') as file:
        first = file.read(4)
    return 'open' if first in CAPTURES or first[:2] == b'\x1f\x8b' else 'inspect'


def key_words(arguments: argparse.Namespace) -> str:
    """Returns the words that give `open` the keys, as a shell takes them. They are tried first."""
    read_ring(arguments)
    words = [word for name in ('code', 'key') for value in getattr(arguments, name) for word in (f'--{name}', value)]
    words += [word for path in arguments.keys_from for word in ('--keys-from', os.path.abspath(path))]
    return shlex.join(words)


def do_captures(arguments: argparse.Namespace) -> int:
    """Opens each file of a folder, and adds up what was found."""
    given, results = words_of(arguments, 'FOLDER RESULTS')
    folder = os.path.abspath(given)
    files = sorted(name for name in os.listdir(folder) if os.path.isfile(os.path.join(folder, name)))
    if not files:
        raise Stop(f'{given}: no files are in it', UNREADABLE)
    os.umask(PRIVATE)
    keys = key_words(arguments)
    check_work(results, f'captures {encoded.encode(folder)} {" ".join(map(encoded.encode, files))} {keys}'.rstrip())
    front = shlex.join([sys.executable, encoded.__file__])
    command = f'if [ {{1}} = open ]; then {front} open {{2}} {keys}; else {front} inspect {{2}}; fi'
    statuses = call_all(results, options_of(arguments), command, rows_of(folder, files))
    bad = [(name, status) for name, status in zip(files, statuses) if status]
    print(f'{len(files) - len(bad)} reports in {results}/calls')
    if bad:
        print(f'the first call that failed: {shown(bad[0][0])} ended with status {bad[0][1]}')
    return 1 if bad else 0


def rows_of(folder: str, files: List[str]) -> List[Tuple[str, str, str]]:
    """Returns for each file of a folder the command that reads it, its encoded path, and the name of its result."""
    return [
        (command_for(os.path.join(folder, name)), encoded.encode(os.path.join(folder, name)), result)
        for name, result in zip(files, (encoded.result_name(name, number) for number, name in enumerate(files, 1)))
    ]


KINDS = {'runs': do_runs, 'captures': do_captures, 'schedule': do_schedule}
