"""Packs the front end as a wheel, which pip installs without any network. The programs aren't in it."""
import base64
import hashlib
import os
import time
import zipfile
from typing import Dict

from .layout import FRONT_END, files_of
from .packing import About

PACKAGE = 'gabzetu_front_end'
STARTER = '''"""The front end of tc: the modules are below this folder, in the places that a clone has."""
import os
import sys


def main():
    """Runs gabzetu with the words of the command line, and returns its exit status."""
    sys.path.insert(0, os.path.join(os.path.dirname(os.path.realpath(__file__)), 'tools'))
    from gabzetu.cli import main as run

    return run(sys.argv[1:])
'''
METADATA = '''Metadata-Version: 2.1
Name: gabzetu
Version: {version}
Summary: front end of a proved Zigbee trust centre
License: MIT OR Apache-2.0
Requires-Python: >=3.8
Provides-Extra: captures
Requires-Dist: scapy; extra == 'captures'

gabzetu runs the program tc on files, explains mistakes, opens captures, and makes pages. The program isn't in this
wheel: set GABZETU_TC to its path, or install the Debian package gabzetu.
'''
WHEEL = 'Wheel-Version: 1.0\nGenerator: tools/release\nRoot-Is-Purelib: true\nTag: py3-none-any\n'
ENTRY = f'[console_scripts]\ngabzetu = {PACKAGE}:main\n'


def row_of(name: str, data: bytes) -> str:
    """Returns the line of RECORD of a file."""
    digest = base64.urlsafe_b64encode(hashlib.sha256(data).digest()).rstrip(b'=').decode('ascii')
    return f'{name},sha256={digest},{len(data)}\n'


def files_of_wheel(front_end: str, about: About) -> Dict[str, bytes]:
    """Returns the files of the wheel by their names. `front_end` is the folder share/gabzetu that was laid out."""
    found = {f'{PACKAGE}/__init__.py': STARTER.encode()}
    for name in files_of(front_end):
        if name.split(os.sep)[0] in FRONT_END:
            with open(os.path.join(front_end, name), 'rb') as file:
                found[f'{PACKAGE}/{name}'] = file.read()
    info = f'gabzetu-{about.version}.dist-info'
    texts = {'METADATA': METADATA.format(version=about.version), 'WHEEL': WHEEL, 'entry_points.txt': ENTRY}
    found.update((f'{info}/{name}', text.encode()) for name, text in texts.items())
    record = ''.join(row_of(name, data) for name, data in found.items()) + f'{info}/RECORD,,\n'
    return {**found, f'{info}/RECORD': record.encode()}


def pack_wheel(front_end: str, out: str, about: About) -> str:
    """Packs gabzetu-VERSION-py3-none-any.whl, and returns its path. All files have the commit's date."""
    path = os.path.join(out, f'gabzetu-{about.version}-py3-none-any.whl')
    date = time.gmtime(about.commit.date)[:6]
    with zipfile.ZipFile(path, 'w') as packed:
        for name, data in files_of_wheel(front_end, about).items():
            member = zipfile.ZipInfo(name, date)
            member.external_attr = 0o100644 << 16
            member.compress_type = zipfile.ZIP_DEFLATED
            packed.writestr(member, data)
    return path
