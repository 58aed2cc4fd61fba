"""Tests of what is installed: with nothing but its own folder on the PATH, the tutorial writes what the page shows."""
import os
import shutil
import subprocess
import sys
import tempfile
import unittest

from gabzetu import TOP
from gabzetu.program import find_tc
from gabzetu.test.support import needs_tc
from gabzetu.test.test_open import needs_scapy
from releasing import layout
from releasing.commit import Commit
from releasing.links import dead_links

missing = [it for it in ('mscgen', 'tshark', 'parallel') if not shutil.which(it)]


@needs_tc
@needs_scapy
class Installed(unittest.TestCase):
    @classmethod
    def setUpClass(cls):
        holder = tempfile.TemporaryDirectory()
        cls.addClassCleanup(holder.cleanup)
        cls.prefix = os.path.join(holder.name, 'usr')
        with open(find_tc(), 'rb') as file:
            programs = {'tc': file.read()}
        layout.lay_out(TOP, cls.prefix, Commit('0' * 40, 1700000000), programs, {}, 'a kit', ['a gate'], 'notices')

    @unittest.skipIf(missing, f'{" ".join(missing)} is missing')
    def test_the_pages_are_walked_by_it_alone(self):
        walk = [sys.executable, os.path.join(TOP, 'tools', 'walk'), '--installed', self.prefix]
        words = [*walk, 'docs/TUTORIAL.md', 'README.md']
        ran = subprocess.run(words, stdout=subprocess.PIPE, stderr=subprocess.STDOUT, text=True, check=False)
        self.assertEqual(ran.returncode, 0, ran.stdout)

    def test_its_pages_name_only_what_is_there(self):
        self.assertEqual(list(dead_links(self.prefix)), [])
        page = os.path.join(self.prefix, layout.DOCS, 'docs', 'TUTORIAL.md')
        with open(page, encoding='utf-8') as file:
            commands = [it for it in file if it.startswith('    $ ')]
        self.assertGreater(len(commands), 40)
        self.assertEqual([it for it in commands if './' in it or 'tools/' in it], [])
