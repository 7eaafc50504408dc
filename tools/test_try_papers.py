#!/usr/bin/env python3
"""Tries `tools/try-papers` on two small papers, of which it passes what is as told and finds each thing that isn't.

    tools/test_try_papers.py [PROGRAM]

A script that answers each line plays the program."""
import pathlib
import shutil
import subprocess
import sys
import tempfile
import unittest

TOOL = pathlib.Path(__file__).resolve().with_name('try-papers')
README = """Text.

```sh
top=$PWD
cd "$(mktemp -d)"
```

```sh
$top/covstore run < $top/examples/a.script
```

```replies a
cat - /f     ok 2
             ...
             2 b
drop s       refused no-session
```

```sh
ls $top/examples
```

```text
...
a.script
...
```
"""
GUIDE = """```sh
echo word
```

```text
word
```
"""
COVSTORE = """#!/bin/sh
top=$(dirname "$0")
exec "$top/crates/cov_cli/out/cov_cli" "$@"
"""
PROGRAM = """#!/bin/sh
while read -r word rest; do
    case $word in
    cat) printf 'ok 2\\n1 a\\n2 b\\n' ;;
    drop) echo 'refused no-session'; refused=1 ;;
    esac
done
exit ${refused:-0}
"""
FILES = {
    'README.md': README,
    'docs/GUIDE.md': GUIDE,
    'covstore': COVSTORE,
    'program': PROGRAM,
    'examples/a.script': '# A file.\ncat - /f\n\ndrop s\n',
    'examples/a.replies': 'ok 2\n1 a\n2 b\nrefused no-session\n',
    'examples/reader.py': '',
    'tools/test_none.py': '',
    'tools/clauses.py': '',
}

# What is put in the place of what in a file, and what is told then.
WRONG = (
    ('README.md', '2 b', '2 c', 'README.md:12: the example has no line `cat - /f`'),
    ('README.md', 'drop s ', 'drop t ', 'README.md:12: the example has no line `drop t`'),
    ('README.md', '```replies a', '```c', 'README.md:12: a code block of no kind'),
    ('README.md', 'a.script\n...', 'b.script\n...', '-b.script'),
    ('README.md', 'cd "$(mktemp -d)"', 'echo more', '+more'),
    ('README.md', 'cd "$(mktemp -d)"', 'exit', '+(not reached)'),
    ('docs/GUIDE.md', 'echo word', 'echo words', '+words'),
    ('docs/GUIDE.md', 'echo word', 'echo word; echo fault >&2', '+fault'),
    ('examples/a.replies', '1 a', '1 d', 'examples/a.script: differs'),
    ('program', ':-0', ':+0', 'examples/a.script ends with 0'),
    ('program', "'refused no-session'", "refused", '-refused no-session'),
    ('examples/reader.py', '', 'raise SystemExit("no reader")', 'no reader'),
    ('tools/test_none.py', '', 'raise SystemExit("no test")', 'no test'),
    ('tools/clauses.py', '', 'raise SystemExit("no clause")', 'no clause'),
)


class TryPapers(unittest.TestCase):
    def tried(self, files):
        """The exit status and the output over these files."""
        with tempfile.TemporaryDirectory() as place:
            top = pathlib.Path(place)
            for name, text in files.items():
                (top / name).parent.mkdir(exist_ok=True)
                (top / name).write_text(text)
                (top / name).chmod(0o755)
            shutil.copy(TOOL, top / 'tools')
            ended = subprocess.run([top / 'tools' / 'try-papers', top / 'program'], capture_output=True)
        return ended.returncode, (ended.stdout + ended.stderr).decode()

    def test_as_told(self):
        status, told = self.tried(FILES)
        self.assertEqual(status, 0, told)
        self.assertTrue(told.endswith('all is as told\n'), told)

    def test_wrong(self):
        for name, old, new, fault in WRONG:
            self.assertIn(old, FILES[name])
            status, told = self.tried({**FILES, name: FILES[name].replace(old, new, 1)})
            self.assertEqual(status, 1, (name, new, told))
            self.assertIn(fault, told)


if __name__ == '__main__':
    unittest.main(argv=sys.argv[:1])
