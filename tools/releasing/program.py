"""Checks the files to be released as tc and tc_centre: what they are, how old, and what they need."""
import os
import platform
import re
import shutil
from typing import Dict, List, NamedTuple, Optional

from gabzetu import TOP
from gabzetu.errors import MISSING, WRONG_INPUT, Stop
from gabzetu.output import read_input
from gabzetu.program import BUILT, is_program

CENTRE = os.path.join(TOP, 'crates', 'tc_centre', 'out', 'tc_centre')
LIBRARY = os.path.join(TOP, 'out', 'lib')
LIBRARY_FILES = ('libtc_c.a', 'libtc_c.so', 'libtc_c_centre.a', 'libtc_c_centre.so')
ELF = b'\x7fELF\x02\x01'
# The Debian package of each library that tc may need.
PACKAGES = {b'libgcc_s.so.1': 'libgcc-s1'}


class Machine(NamedTuple):
    """A kind of processor: its name for people, in archives, and in Debian packages."""

    title: str
    name: str
    debian: str


MACHINES = {
    b'\x3e\x00': Machine('x86-64', 'x86_64', 'amd64'),
    b'\xb7\x00': Machine('aarch64', 'aarch64', 'arm64'),
}


def find_program(path: Optional[str]) -> str:
    """Returns the path of the program: the given one, else $GABZETU_TC, else the one that ./build built."""
    named = path or os.environ.get('GABZETU_TC')
    if named:
        if not is_program(named):
            raise Stop(f'{named}: no program that can be run is there', MISSING)
        return named
    if not is_program(BUILT):
        raise Stop('no program is built: run ./build, or name one by --program', MISSING)
    check_age(BUILT)
    return BUILT


def find_centre(path: Optional[str]) -> Optional[str]:
    """Returns the path of the live trust centre: the given one, else the built one; none if neither is there."""
    if path and not is_program(path):
        raise Stop(f'{path}: no program that can be run is there', MISSING)
    if not path and is_program(CENTRE):
        check_age(CENTRE)
    return path or (CENTRE if is_program(CENTRE) else None)


def read_built() -> Dict[str, bytes]:
    """Returns the programs that a gate has just built, and the library for C, by their names."""
    paths = (('tc', BUILT), ('tc_centre', CENTRE))
    return {**{name: read_program(path) for name, path in paths if is_program(path)}, **read_library(LIBRARY)}


def read_library(folder: str) -> Dict[str, bytes]:
    """Returns the files of the library for C in a folder, by their names. There are none if it wasn't built."""
    paths = {name: os.path.join(folder, name) for name in LIBRARY_FILES}
    return {name: read_input(path) for name, path in paths.items() if os.path.exists(path)}


def check_age(program: str) -> None:
    """Stops where a source is newer than a built program."""
    built = os.stat(program).st_mtime
    crates = os.path.join(TOP, 'crates')
    for folder in (os.path.join(crates, name, kind) for name in os.listdir(crates) for kind in ('src', 'specs')):
        for at, _, names in os.walk(folder):
            newer = [it for it in names if os.stat(os.path.join(at, it)).st_mtime > built]
            if newer:
                path = os.path.relpath(os.path.join(at, newer[0]), TOP)
                raise Stop(f'the built program is older than {path}: run ./build, and the gate again', WRONG_INPUT)


def read_program(path: str) -> bytes:
    """Returns the bytes of a program. Stops where it isn't one for Linux on a processor that is known."""
    data = read_input(path)
    if data[:6] != ELF or data[18:20] not in MACHINES:
        known = ' or '.join(it.title for it in MACHINES.values())
        raise Stop(f'{path}: this is no program for Linux on {known}: ./build makes one', WRONG_INPUT)
    return data


def machine_of(programs: Dict[str, bytes]) -> Machine:
    """Returns the machine that all programs are for. Stops if they are for several."""
    found = sorted({MACHINES[data[18:20]] for data in programs.values()})
    if len(found) > 1:
        raise Stop(f'the programs are for {" and ".join(it.title for it in found)}: a release is for one', WRONG_INPUT)
    return found[0]


def runner_of(machine: Machine) -> List[str]:
    """Returns the command that runs programs for a machine here: none, or an emulator."""
    if platform.machine() == machine.name:
        return []
    emulator = f'qemu-{machine.name}-static'
    if not shutil.which(emulator):
        raise Stop(f'{emulator} is missing, which tries the program here: apt-get install qemu-user-static', MISSING)
    return [emulator]


def runs_here(package: str) -> bool:
    """Returns whether a Debian package is for the processor of this system, by its name."""
    here = [it.debian for it in MACHINES.values() if it.name == platform.machine()]
    return any(package.endswith(f'_{it}.deb') for it in here)


def needs_of(data: bytes) -> List[str]:
    """Returns the Debian packages that a program needs, by the names of libraries and versions in it."""
    versions = [int(it) for it in re.findall(rb'GLIBC_2\.([0-9]+)\0', data)]
    libraries = sorted(name for library, name in PACKAGES.items() if library + b'\0' in data)
    return ([f'libc6 (>= 2.{max(versions)})'] if versions else []) + libraries
