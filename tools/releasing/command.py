"""The command line of tools/release."""
import argparse
import os
import shutil
import subprocess
import tempfile
from typing import Dict, List, Optional, Tuple

from gabzetu import TOP
from gabzetu.cli import Parser
from gabzetu.errors import MISSING, UNWRITABLE, WRONG_INPUT, Stop, reason_of
from gabzetu.output import say

from . import clean_root, commit, conformance, layout, notices, packing, program, wheel
from .gate import GATES, check_bound, open_log, read_gate, run_gate, write_log

DESCRIPTION = '''Makes the release of a passed gate in out/release: gabzetu-VERSION-x86_64-linux.tar.zst,
gabzetu_VERSION_amd64.deb, gabzetu-VERSION-py3-none-any.whl and SHA256SUMS. Of programs for aarch64 the names say so.

The first two install gabzetu, the programs as lib/gabzetu/tc and tc_centre, the library for C if it is built, pages,
examples, man pages, completions, licences, notices of the libraries in the programs, check sums, the gate's last lines
and the kit's version. The wheel has the front end alone. VERSION is that of the file VERSION. The files are those of
the commit, so the same commit, programs and log make the same bytes.

Then it tries them in a clean Debian root, which debootstrap makes in out/clean-root and which is kept there: it
installs the package, plays an example, opens a capture and makes a page. That needs root.

--run runs the gate over the commit that is checked out, with nothing edited, and writes its log to out/gate/COMMIT.log.
The log names the commit and the check sums of the programs that the gate built, and is sealed with the key of this
clone, out/gate/key. A log without that seal, of another commit, or of other programs is refused. The program that is
released also plays the worked schedules again. --sign FILE signs SHA256SUMS with a key of `ssh-keygen`, as
SHA256SUMS.sig.

  tools/release 0.9.0 --run
  tools/release 0.9.0 --gate out/gate/COMMIT.log --sign ~/.ssh/release'''
RELEASES = os.path.join(TOP, 'out', 'release')
CAPTURE = os.path.join(TOP, 'tools', 'data', 'mixed.pcap')


def read_words(words: List[str]) -> argparse.Namespace:
    """Returns the arguments."""
    parser = Parser(
        prog='tools/release', description=DESCRIPTION, formatter_class=argparse.RawDescriptionHelpFormatter
    )
    parser.add_argument('version', metavar='VERSION', help='the version, as the file VERSION has it')
    gate = parser.add_mutually_exclusive_group(required=True)
    gate.add_argument('--run', action='store_true', help='run the gate first')
    gate.add_argument('--gate', metavar='LOG', help='the log that an earlier --run wrote')
    parser.add_argument('--sign', metavar='FILE', help='the private key that signs SHA256SUMS')
    parser.add_argument('--program', metavar='TC', help='the program (the one that ./build built, or $GABZETU_TC)')
    parser.add_argument('--centre', metavar='TC_CENTRE', help='the living centre (the built one, if there is one)')
    parser.add_argument('--library', metavar='FOLDER', default=program.LIBRARY, help='the library for C (out/lib)')
    parser.add_argument('--kit', metavar='LINE', help='the version of the kit (what `rt version` prints)')
    parser.add_argument('--kit-folder', metavar='FOLDER', help='the folder of the kit (that of the command rt)')
    parser.add_argument('--edited', action='store_true', help='take what is committed although files were edited')
    parser.add_argument('--no-root', action='store_true', help='leave out the trial in a clean root')
    parser.add_argument('--mirror', metavar='URL', help='the Debian mirror (the one that apt uses here)')
    parser.add_argument('-o', '--output', metavar='FOLDER', default=RELEASES, help='where the files go (out/release)')
    return parser.parse_args(words)


def read_kit(given: Optional[str]) -> str:
    """Returns the version of the kit."""
    if given:
        return given
    if not shutil.which('rt'):
        raise Stop("there is no command 'rt' on the PATH: put the kit's folder bin there, or give --kit LINE", MISSING)
    return subprocess.run(['rt', 'version'], stdout=subprocess.PIPE, check=True).stdout.decode().strip()


def check_edits(is_taken: bool) -> None:
    """Stops where files were edited after the commit, unless that is wanted."""
    edited = commit.edited_files()
    if edited and not is_taken:
        why = 'was edited after the commit: commit it and run the gate, or give --edited'
        raise Stop(f'{edited[0]} {why}', WRONG_INPUT)
    if edited:
        say(f'release: {len(edited)} edited files are taken as they were committed')


def read_programs(arguments: argparse.Namespace) -> Dict[str, bytes]:
    """Returns the bytes of the programs by their names: tc, and the living centre where it is there."""
    programs = {'tc': program.read_program(program.find_program(arguments.program))}
    centre = program.find_centre(arguments.centre)
    if centre is None:
        say('release: tc_centre is not built, and is left out: `./build tc_centre` makes it')
    else:
        programs['tc_centre'] = program.read_program(centre)
    return programs


def make_release(arguments: argparse.Namespace, room: str, out: str) -> Tuple[str, str]:
    """Makes the two archives and their check sums in `out`. `room` is a folder for what is between."""
    check_edits(arguments.edited and not arguments.run)
    at = commit.read_commit()
    commit.check_version(arguments.version, at)
    log = arguments.gate or os.path.join(GATES, f'{at.name}.log')
    if arguments.run:
        lines = run_gate()
        check_edits(False)
        write_log(log, at.name, program.read_built(), lines)
    lines = open_log(log)
    gate = read_gate(log, lines)
    programs, library = read_programs(arguments), program.read_library(arguments.library)
    check_bound(log, lines, at.name, {**programs, **library})
    sources = commit.unpack_commit(at, os.path.join(room, 'sources'))
    machine = program.machine_of(programs)
    count = conformance.try_program(programs['tc'], program.runner_of(machine), sources)
    say(f'release: {count} worked schedules are played as they were worked out')
    texts = notices.write_notices(sources, notices.find_kit(arguments.kit_folder))
    root = os.path.join(room, 'root')
    layout.lay_out(sources, os.path.join(root, 'usr'), at, programs, library, read_kit(arguments.kit), gate, texts)
    about = packing.About(arguments.version, at, program.needs_of(b''.join(programs.values())), machine)
    return pack_all(root, out, about, arguments.sign)


def pack_all(root: str, out: str, about: packing.About, key: Optional[str]) -> Tuple[str, str]:
    """Packs what was laid out in each form, with signed check sums. Returns the paths of archive and package."""
    usr = os.path.join(root, 'usr')
    archive = packing.pack_archive(usr, out, about)
    wheel.pack_wheel(os.path.join(usr, 'share', 'gabzetu'), out, about)
    package = packing.pack_deb(root, out, about)
    packing.sign(packing.write_sums(out), key)
    return archive, package


def deliver(made: str, out: str) -> None:
    """Moves the files of a folder to the folder of the release."""
    os.makedirs(out, exist_ok=True)
    for name in sorted(os.listdir(made)):
        shutil.move(os.path.join(made, name), os.path.join(out, name))
        say(f'release: {os.path.relpath(os.path.join(out, name))}')


def run(words: List[str]) -> None:
    """Makes a release, tries it, and puts it in its place. A release that fails its trial isn't put there."""
    arguments = read_words(words)
    with tempfile.TemporaryDirectory(prefix='release-') as room:
        made = os.path.join(room, 'made')
        os.mkdir(made)
        archive, package = make_release(arguments, room, made)
        if arguments.no_root or not program.runs_here(package):
            say('release: the trial in a clean root is left out')
        else:
            clean_root.try_release(archive, package, arguments.version, CAPTURE, arguments.mirror)
        deliver(made, arguments.output)


def main(words: List[str]) -> int:
    """Runs tools/release with these words, and returns its exit status."""
    try:
        run(words)
    except Stop as stop:
        say(f'release: {stop.message}')
        return stop.status
    except OSError as error:
        say(f'release: {error.filename or "a file"}: {reason_of(error)}')
        return UNWRITABLE
    return 0
