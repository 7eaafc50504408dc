#!/usr/bin/env python3
"""Tries `tools/clauses.py` on citations that stand and on ones that don't.

    tools/test_clauses.py [PROGRAM]

It ends with 0 exactly if each is told as it is. It needs no program, and takes one since each of these tests is handed one."""
import pathlib
import sys
import tempfile
import unittest

sys.path.insert(0, str(pathlib.Path(__file__).resolve().parent))
import clauses

HEAD = '| Crate | Promise | Carried by |\n|---|---|---|\n'
STAND = ('`cov_serve::run` [`front`, `whole`]', '`cov_store::Store::open` [`stands`]', '`cov_lines::forms_are_answered`',
         '`cov_codes::Stop` [`from_gives`]', '`cov_edit/specs/Replay.antt` [`replay`]', 'no citation, `front` or `run` alone')
DONT = {'`cov_serve::run` [`front`, `wholly`]': 'has no wholly',
        '`cov_serve::serve_line` [`front`]': 'has no front',
        '`cov_serve::runs` [`front`]': "isn't there",
        '`cov_store::Shop::open` [`stands`]': "isn't there",
        '`cov_shop::run` [`front`]': 'is of no crate here',
        '`run` [`front`]': 'has no crate',
        '`cov_edit/specs/Replay.antt` [`replayed`]': 'has no replayed',
        '`cov_serve::run`': 'has no ensures without a name'}
ROWS_STAND = ('| `cov_serve` | it writes | `run` [`front`]; `specs/Jobs.antt` [`job_of`] |', '| `cov_cli` | it is fast | tested |',
              '| `cov_cli` | it stops | tested (`bench/stops.py`) |')
ROWS_DONT = {'| `cov_store` | it writes | `run` [`front`] |': "isn't there",
             '| serving | it writes | `cov_serve::run` [`front`] |': 'the row has no crate',
             '| `cov_serve` | it writes | by care |': 'neither a citation nor tested',
             '| `cov_cli` | it stops | tested (`bench/starts.py`) |': "isn't there"}


class Citations(unittest.TestCase):
    @classmethod
    def setUpClass(cls):
        cls.crates = clauses.read_crates()

    def found(self, text):
        """What is wrong in a document of this text."""
        with tempfile.NamedTemporaryFile('w', suffix='.md') as document:
            document.write(text)
            document.flush()
            return [what for _, what in clauses.findings(self.crates, document.name)]

    def test_those_that_stand(self):
        for text in STAND:
            self.assertEqual(self.found(text), [], text)

    def test_those_that_do_not(self):
        for text, what in DONT.items():
            self.assertIn(what, '\n'.join(self.found(text)), text)

    def test_rows_that_stand(self):
        for row in ROWS_STAND:
            self.assertEqual(self.found(HEAD + row), [], row)

    def test_rows_that_do_not(self):
        for row, what in ROWS_DONT.items():
            self.assertIn(what, '\n'.join(self.found(HEAD + row)), row)


if __name__ == '__main__':
    unittest.main(argv=sys.argv[:1])
