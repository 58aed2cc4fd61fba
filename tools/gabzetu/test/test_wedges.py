"""Plays the schedules of tools/data/wedges: what refuses a device, and what brings it back, as docs/POLICY.md says.

The lines `#= LINE` at the head of a schedule are what the policy gives, worked out by hand: all lines of its transcript
that admit, remove or tell a device, change a state or the active network key, or refuse. The start has none."""
import glob
import os
import unittest

from gabzetu import TOP, program
from gabzetu.test.support import needs_tc

WEDGES = os.path.join(TOP, 'tools', 'data', 'wedges', '*.sched')
KINDS = ('live', 'removed', 'told', 'untold', 'state', 'active', 'refuse')
MARK = '#= '


@needs_tc
class Wedges(unittest.TestCase):
    def test_each_schedule_gives_its_lines(self):
        paths = sorted(glob.glob(WEDGES))
        self.assertTrue(paths)
        for path in paths:
            with self.subTest(os.path.basename(path)), open(path, encoding='ascii') as file:
                text = file.read()
                wanted = [line[len(MARK) :] for line in text.splitlines() if line.startswith(MARK)]
                ran = program.run_tc(['play'], text.encode())
                lines = ran.output.decode().splitlines()
                self.assertEqual([line for line in lines if line.split(' ')[1] in KINDS], wanted)


if __name__ == '__main__':
    unittest.main()
