"""Finds the proved programs of a hub: tc, which makes a store, and tc_centre, which serves it."""
import os
import sys
from typing import Optional

TOP = os.path.dirname(os.path.dirname(os.path.dirname(os.path.abspath(__file__))))
# If this folder is PREFIX/share/gabzetu/tools/hub, the programs are in PREFIX/lib/gabzetu.
BESIDE = os.path.normpath(os.path.join(TOP, '..', '..', 'lib', 'gabzetu'))
BUILT = {
    'tc': ('GABZETU_TC', f'{TOP}/crates/tc_cli/out/tc_cli', './build'),
    'tc_centre': ('GABZETU_TC_CENTRE', f'{TOP}/crates/tc_centre/out/tc_centre', './build tc_centre'),
}


def find(name: str) -> Optional[str]:
    """Returns the path of a program, or none: the one that its variable names, else the installed or the built one."""
    variable, built, _ = BUILT[name]
    named = os.environ.get(variable)
    for path in [named] if named else [os.path.join(BESIDE, name), built]:
        if os.path.isfile(path) and os.access(path, os.X_OK):
            return os.path.abspath(path)
    return None


def find_or_stop(tool: str, name: str) -> str:
    """Returns the path of a program. Where it is missing, says what to do and ends with status 70."""
    path = find(name)
    if path is None:
        variable, _, command = BUILT[name]
        print(f'{tool}: the program {name} is missing: run {command}, or set {variable} to its path', file=sys.stderr)
        sys.exit(70)
    return path
