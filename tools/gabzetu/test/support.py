"""What the tests share: running the front end, examples, a folder of their own."""
import collections
import io
import os
import sys
import tempfile
import unittest
from unittest import mock

from gabzetu import TOP, cli
from gabzetu.errors import Stop
from gabzetu.program import find_tc

# status: the exit status; output: standard output; said: standard error
Ran = collections.namedtuple('Ran', 'status output said')


def has_tc():
    try:
        return bool(find_tc())
    except Stop:
        return False


needs_tc = unittest.skipUnless(has_tc(), 'the program tc is missing')


def example(name):
    return os.path.join(TOP, 'examples', name)


def stream(data=b''):
    """Returns a standard stream that holds these bytes."""
    return io.TextIOWrapper(io.BytesIO(data), encoding='utf-8', write_through=True)


def written_to(file):
    return file.buffer.getvalue().decode('utf-8')


def run(*words, given='', tc=None):
    """Runs gabzetu with these words on an input, with another tc where one is given, in this process."""
    argv = [os.path.join(TOP, 'gabzetu'), *words]
    streams = {'stdin': stream(given.encode()), 'stdout': stream(), 'stderr': stream()}
    mask = os.umask(0o022)
    try:
        with mock.patch.multiple(sys, argv=argv, **streams), mock.patch.dict(
            os.environ, {} if tc is None else {'GABZETU_TC': tc}
        ):
            status = status_of(words)
    finally:
        os.umask(mask)
    return Ran(status, written_to(streams['stdout']), written_to(streams['stderr']))


def status_of(words):
    """Returns the exit status of gabzetu. `--help` ends it by itself."""
    try:
        return cli.main(list(words))
    except SystemExit as ended:
        return ended.code or 0


class Folder(unittest.TestCase):
    """A test with a folder that is removed after it."""

    def setUp(self):
        holder = tempfile.TemporaryDirectory()
        self.addCleanup(holder.cleanup)
        self.folder = holder.name

    def path(self, name):
        return os.path.join(self.folder, name)

    def write(self, name, text):
        with open(self.path(name), 'w', encoding='utf-8', newline='') as file:
            file.write(text)
        return self.path(name)
