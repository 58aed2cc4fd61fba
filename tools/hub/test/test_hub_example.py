"""Tests of examples/hub.py: it continues at a refusal and at a frame without content; only its owner reads its log."""
import contextlib
import importlib.util
import io
import os
import stat
import tempfile
import unittest

from hub.programs import TOP


def load():
    """Returns the example as a module."""
    spec = importlib.util.spec_from_file_location('hub_example', f'{TOP}/examples/hub.py')
    module = importlib.util.module_from_spec(spec)
    spec.loader.exec_module(module)
    return module


class HubExample(unittest.TestCase):
    def setUp(self):
        self.example = load()
        self.hub = self.example.Hub.__new__(self.example.Hub)
        self.hub.radio = None

    def happens(self, answer):
        """Returns what the hub prints for an event with that answer, which may be an exception."""

        def ask(_):
            if isinstance(answer, Exception):
                raise answer
            return [line.split(' ') for line in answer]

        self.hub.ask, said = ask, io.StringIO()
        with contextlib.redirect_stdout(said):
            self.hub.happen('provision lamp 00')
        return said.getvalue()

    def test_a_frame_without_content(self):
        accept = f'1 accept hub nwk network {"00" * 16} 00124B0000000002 5 2D 0802'
        said = self.happens([f'{accept} -', '1 refuse hub aps malformed'])
        self.assertEqual(said, 'the hub: refuse hub aps malformed\n')
        self.assertEqual(self.happens([f'{accept} 00']), '')
        self.assertEqual(self.happens([f'{accept} 000106000401010701']), '00124B0000000002 says 01\n')

    def test_a_refusal(self):
        said = self.happens(self.example.Refused('bad-code'))
        self.assertEqual(said, 'the hub: `provision` was not carried out: bad-code\n')

    def test_the_mode_of_the_log(self):
        with tempfile.TemporaryDirectory() as folder:
            path, old = os.path.join(folder, 'log'), os.umask(0o022)
            try:
                self.example.open_log(path).close()
            finally:
                os.umask(old)
            self.assertEqual(stat.S_IMODE(os.stat(path).st_mode), 0o600)


if __name__ == '__main__':
    unittest.main()
