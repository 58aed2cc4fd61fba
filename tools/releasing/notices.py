"""Notices of the libraries that the programs have in them, by crates.txt and by the folder of the kit."""
import os
import re
import shutil
from typing import Dict, List, Optional, Set

from gabzetu.errors import MISSING, Stop
from gabzetu.output import read_input

PROGRAMS = ('tc_cli', 'tc_centre', 'tc_c', 'tc_c_centre')
LICENCE = re.compile('(LICEN[CS]E|COPYING|NOTICE)')
HEAD = '''Notices of libraries

The programs of this release have code of these libraries in them. The libraries come with the Rattle kit, and most are
ports of Rust crates. The licences of each one follow, as the kit has them.

'''
RULE = '-' * 78


def find_kit(given: Optional[str]) -> str:
    """Returns the folder of the kit: the given one, else that of the command `rt`."""
    command = shutil.which('rt')
    folder = given or (os.path.dirname(os.path.dirname(os.path.realpath(command))) if command else '')
    if not os.path.isdir(os.path.join(folder, 'rattle')):
        raise Stop(
            'the licences of the libraries come from the kit: put its folder bin on the PATH, or give --kit-folder',
            MISSING,
        )
    return folder


def uses_of_repository(sources: str) -> Dict[str, List[str]]:
    """Returns what each crate of crates.txt uses."""
    text = read_input(os.path.join(sources, 'crates.txt')).decode('utf-8')
    rows = [line.partition('#')[0].partition(':') for line in text.splitlines()]
    return {name.split()[0]: names.split() for name, colon, names in rows if colon and name.strip()}


def uses_in_kit(kit: str, name: str) -> List[str]:
    """Returns what a library of the kit uses."""
    path = os.path.join(kit, 'rlibs', f'{name}.rlib', 'format')
    if not os.path.exists(path):
        return []
    return re.findall(r'^dep (\w+)$', read_input(path).decode('utf-8', 'replace'), re.M)


def libraries_of(sources: str, kit: str) -> List[str]:
    """Returns the libraries of the kit that the programs stand on, in order."""
    uses = uses_of_repository(sources)
    left, found = [it for it in PROGRAMS if it in uses], set()  # type: List[str], Set[str]
    while left:
        name = left.pop()
        if name not in found:
            found.add(name)
            left += uses[name] if name in uses else uses_in_kit(kit, name)
    return sorted(found - set(uses))


def licences_in(kit: str, name: str) -> Dict[str, str]:
    """Returns the texts of the licences of a library by the names of their files."""
    folder = os.path.join(kit, 'rattle', name)
    names = sorted(it for it in os.listdir(folder) if LICENCE.match(it)) if os.path.isdir(folder) else []
    return {it: read_input(os.path.join(folder, it)).decode('utf-8', 'replace').strip() for it in names}


def write_notices(sources: str, kit: str) -> str:
    """Returns the notices: each text once, with the libraries that have it, and those that have none."""
    by_text: Dict[str, List[str]] = {}
    texts: Dict[str, str] = {}
    without = []
    for name in libraries_of(sources, kit):
        licences = licences_in(kit, name)
        for file, text in licences.items():
            words = ' '.join(text.split())
            texts.setdefault(words, text)
            by_text.setdefault(words, []).append(f'{name} ({file})')
        if not licences:
            without.append(name)
    parts = [f'{RULE}\n{", ".join(names)}\n{RULE}\n\n{texts[it]}\n' for it, names in by_text.items()]
    if without:
        parts.append(f'{RULE}\nThe kit has no file of a licence for these: {", ".join(without)}\n')
    return HEAD + '\n'.join(parts)
