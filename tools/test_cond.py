#!/usr/bin/env python3
"""Tries `tools/cond.py` on small sources, each form of a line and each fault once; examples/reader.py tries it on a whole program, and
bench/conditions.py beside unifdef and cpp.

    tools/test_cond.py [PROGRAM]

The program plays no part in it."""
import pathlib
import subprocess
import sys
import unittest

TOOL = pathlib.Path(__file__).resolve().with_name('cond.py')

# Of each source in C its conditional text.
TURNED = (
    ('a\n', 'a\n'),
    ('#ifdef A\na\n#endif\n', '#if A\na\n#endif\n'),
    ('#ifndef A\na\n#else\nb\n#endif\n', '#if !A\na\n#else\nb\n#endif\n'),
    ('#if defined(A) && !defined B || 0\na\n#endif\n', '#if A & !B | false\na\n#endif\n'),
    ('#  if (defined(A) || 1) /* both */\na\n# endif // A\n', '#if (A | true)\na\n#endif\n'),
    ('#if defined(A) \\\n    && defined(B)\na\n#endif\n', '#if A & B\na\n#endif\n'),
    ('#ifdef A\na\n#elif defined(B)\nb\n#else\nc\n#endif\n', '#if A\na\n#else\n#if B\nb\n#else\nc\n#endif\n#endif\n'),
    ('#include <stdio.h>\n', '##include <stdio.h>\n'),
    ('/*\n#ifdef A\n*/\n', '/*\n##ifdef A\n*/\n'),
)

# Of each source in C its conditional text, and the numbers of the lines that aren't turned.
NOT_TURNED = (
    ('#if A > 1\na\n#endif\n', '##if A > 1\na\n##endif\n', [1]),
    ('a\n#define A\n#ifdef A\nb\n#endif\n', 'a\n##define A\n##ifdef A\nb\n##endif\n', [3]),
    ('#ifdef true\na\n#endif\n', '##ifdef true\na\n##endif\n', [1]),
    ('#if A > 1\na\n#elif defined(B)\nb\n#endif\n', '##if A > 1\na\n##else\n#if B\nb\n#endif\n##endif\n', [1]),
    ('#ifdef A\na\n', '#if A\na\n', [1]),
    ('a\n#endif\n', 'a\n##endif\n', [2]),
)

# Of each conditional text its source in C.
BACK = (
    ('#if A\na\n#else\nb\n#endif\n', '#ifdef A\na\n#else\nb\n#endif\n'),
    ('#if !A\na\n#endif\n', '#ifndef A\na\n#endif\n'),
    ('#if A & (B | !C) | true\na\n#endif\n', '#if defined(A) && (defined(B) || !defined(C)) || 1\na\n#endif\n'),
    ('##include <stdio.h>\n', '#include <stdio.h>\n'),
)


def ended(source, *words):
    done = subprocess.run([sys.executable, TOOL, *words], input=source.encode(), capture_output=True)
    return done.returncode, done.stdout.decode(), done.stderr.decode()


class Cond(unittest.TestCase):
    def test_turned(self):
        for source, text in TURNED:
            self.assertEqual(ended(source), (0, text, ''), source)

    def test_not_turned(self):
        for source, text, numbers in NOT_TURNED:
            status, made, told = ended(source)
            self.assertEqual((status, made), (1, text), source)
            self.assertEqual([int(line.split(':')[1]) for line in told.splitlines()], numbers, told)

    def test_back(self):
        for source, text in BACK:
            self.assertEqual(ended(source, '--back'), (0, text, ''), source)

    def test_options(self):
        source = '#if defined(B) && !defined(A)\n#endif\n#ifdef B\n#endif\n#if C > 1\n#endif\n'
        status, made, _ = ended(source, '--options')
        self.assertEqual((status, made), (1, 'option B\noption A\n'))

    def test_words(self):
        self.assertEqual(ended('', 'no such file')[0], 2)


if __name__ == '__main__':
    unittest.main(argv=sys.argv[:1])
