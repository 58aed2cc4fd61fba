"""Tests of tools/reading-list, on a small tree."""
import os
import shutil
import subprocess

from gabzetu import TOP
from gabzetu.test.support import Folder

FILES = {
    'crates.txt': '# Low\nzb_low:\nzb_between: zb_low\nzb_top staticlib: zb_low\n',
    'crates/zb_low/specs/Sums.antt': 'use Rattle.std.specs.Prelude.{ℕ}\nuse Rattle.hex.specs.Hex\ntotal n = n\n',
    'crates/zb_low/specs/declared/Row.antt': 'data Row\n',
    'crates/zb_low/specs/Unused.antt': 'nothing\n',
    'crates/zb_low/specs/Parts.antt': 'part n = n\n\n',
    'crates/zb_low/proofs/Halves.antt': 'halves = refl\n',
    'crates/zb_low/src/row.rt': 'pub struct Column;\n',
    'crates/zb_between/specs/Lib.antt': (
        'pub use Rattle.zb_low.specs.Parts\npub use Rattle.zb_low.specs.declared.row.Column\n'
    ),
    'crates/zb_top/specs/Top.antt': (
        'use Rattle.zb_low.specs.Sums.{total}\nuse Rattle.zb_low.specs.declared.Row.{Row}\n'
        'unfoldable pub use Rattle.zb_between.specs.Parts.{part}\nuse Rattle.zb_between.specs.Column.{Column}\n'
        'use Rattle.zb_low.proofs.Halves.{halves}\n\n'
    ),
    'crates/zb_top/specs/Lost.antt': 'use Rattle.zb_between.specs.Whole.{whole}\n',
    'crates/zb_top/specs/Typeless.antt': 'use Rattle.zb_low.specs.declared.cell.Cell.{Cell}\n',
}
LISTED = '''     6 lines in   3 files  zb_low
     6 lines in   1 files  zb_top
    12 lines in   4 files  in all
of the kit: hex std
'''


class ReadingList(Folder):
    def setUp(self):
        super().setUp()
        for name, text in FILES.items():
            os.makedirs(os.path.dirname(self.path(name)), exist_ok=True)
            self.write(name, text)
        os.mkdir(self.path('tools'))
        shutil.copy(os.path.join(TOP, 'tools', 'reading-list'), self.path('tools'))

    def run_tool(self, *words):
        pipes = {'stdout': subprocess.PIPE, 'stderr': subprocess.STDOUT, 'encoding': 'utf-8'}
        ran = subprocess.run([self.path('tools/reading-list'), *words], cwd=self.folder, check=False, **pipes)
        return ran.returncode, ran.stdout

    def test_follows_each_use(self):
        top = self.path('crates/zb_top/specs/Top.antt')
        self.assertEqual(self.run_tool(top), (0, LISTED))
        by_file = self.run_tool('--files', top)[1]
        for path in ('low/specs/Sums', 'low/specs/Parts', 'top/specs/Top'):
            self.assertIn(f'files  crates/zb_{path}.antt\n', by_file)

    def test_stops_at_what_leads_nowhere(self):
        for file, name in (('Lost', 'zb_between.specs.Whole'), ('Typeless', 'zb_low.specs.declared.cell.Cell')):
            path = f'crates/zb_top/specs/{file}.antt'
            said = f'reading-list: {path}: its use of Rattle.{name} leads nowhere\n'
            self.assertEqual(self.run_tool(path), (70, said))

    def test_says_what_cannot_be_read(self):
        status, said = self.run_tool('none.antt')
        self.assertEqual((status, said), (70, 'reading-list: none.antt: no such file or directory\n'))
