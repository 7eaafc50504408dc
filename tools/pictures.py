#!/usr/bin/env python3
"""Makes pictures of what covstore replies, and of what the bench measured.

    tools/pictures.py where 139 SEARCH=on,LOG=on /reader.c > line.svg
    tools/pictures.py page - /reader.c --rules examples/reader.script > page.html
    tools/pictures.py plot bench/README.md 'What sides cost' > sides.svg
    tools/pictures.py examples

`where` draws in which choices a line is, as the program's `where` tells it: an option is an oval, from which a solid line leads on where it
is on, and a dashed one where it is off. LINENO, CHOICE and PATH are those of a `cat` that shows the line. `--dot` prints the text for
Graphviz instead.

`page` makes one page of a file with all its variants, of what `cond` tells, which wants no network. Options are switched there, and the
lines of the variant light up; the address keeps the choice behind a `#`. It begins with CHOICE, completed by the rules. No reply tells the
constraints, so they are taken from the lines `constraint E` of the scripts behind `--rules`, and must be as many as the store has; on a
choice that breaks one no line is lit.

`plot` draws a table of figures with limits, as bench/all.py prints it: that below HEADING, or the first one.

`examples` makes the pictures that are kept in docs/pictures again, or in FOLDER.

The first two ask the store of the current folder. The exit status is 1 where a line is refused or something isn't there, which is told on
standard error, and 2 where the words are wrong. `where` wants Debian's `graphviz`."""
import argparse
import contextlib
import os
import pathlib
import subprocess
import sys
import tempfile

import diagram
import page
import plot
from svg import readable

TOP = pathlib.Path(__file__).resolve().parent.parent
STORE = 'store.cov'

FIX = (('fix.script', 'run'),)
READER = (('reader.script', 'run'), ('reader.cond', 'import', '/reader.c'), ('reader-fix.script', 'run'))
TABLES = (('bench-sessions', 'What a session costs'), ('bench-sides', 'What sides cost'), ('bench-upgrade', 'What an upgrade costs'),
          ('bench-analysis', 'What conditional text, analysis and the past cost'), ('bench-all', 'The last run of all'))


class Fault(Exception):
    """Why a picture can't be made."""


def served(program, words, source):
    """The lines that the program writes on an input which it reads to its end, where it may refuse some."""
    done = subprocess.run([program, *words], input=source, stdout=subprocess.PIPE)
    if done.returncode not in (0, 1):
        raise Fault('%s ends with %d' % (program, done.returncode))
    return done.stdout.split(b'\n')


def replies(program, *questions):
    """The reply to each question about the store of the current folder: its first line, and a list of those that follow."""
    if not os.path.exists(STORE):
        raise Fault('there is no %s in this folder' % STORE)
    told = iter(served(program, ['run'], b''.join(question + b'\n' for question in questions)))
    for question in questions:
        first = next(told)
        word, _, rest = first.partition(b' ')
        if word != b'ok':
            raise Fault('%s: %s' % (readable(question), readable(first)))
        count = rest.partition(b' ')[0]
        yield first, [next(told) for _ in range(int(count) if count.isdigit() else 0)]


def asked(*fields):
    """A line of a script of these fields."""
    return b' '.join(os.fsencode(field) for field in fields)


def line_and_listing(program, number, choice, path):
    """The text of a line that `cat` shows, and where it is."""
    (_, shown), (first, rows) = replies(program, asked('cat', choice, path), asked('where', number))
    texts = dict(row.split(b' ', 1) for row in shown)
    if os.fsencode(number) not in texts:
        raise Fault('%s has no line %s on this choice' % (path, number))
    return readable(texts[os.fsencode(number)]), diagram.listing_of(first, rows)


def picture_of_line(program, number, choice, path):
    text, listing = line_and_listing(program, number, choice, path)
    return diagram.picture_of(listing, 'Where line %s of %s is' % (number, path), text)


def dot_of_line(program, number, choice, path):
    return diagram.dot_of(line_and_listing(program, number, choice, path)[1])


def constraints_in(scripts):
    """The expressions of the lines `constraint E` of scripts."""
    lines = [line for name in scripts for line in pathlib.Path(name).read_bytes().split(b'\n')]
    return [line.decode().removeprefix('constraint ') for line in lines if line.startswith(b'constraint ')]


def page_of_file(program, choice, path, scripts):
    """The page of a file, with the rules of scripts where there are any."""
    rules = constraints_in(scripts)
    questions = [asked('complete', choice), asked('cond', choice, path)] + [b'analyse'] * bool(scripts)
    (completed, _), (_, rows), *analysed = replies(program, *questions)
    for _, states in analysed:
        count = sum(state.startswith((b'needed ', b'redundant ')) for state in states)
        if count != len(rules):
            raise Fault('the store has %d constraints, and the scripts have %d' % (count, len(rules)))
    return page.page_of(path, completed.decode().removeprefix('ok '), rows, rules)


def plot_of_table(file, heading):
    rows = list(plot.rows_of(pathlib.Path(file).read_text(encoding='utf-8'), heading))
    if not rows:
        raise Fault('%s has no such table with limits' % file)
    return plot.plot_of(heading or 'Figures and limits', rows)


@contextlib.contextmanager
def store_of(program, runs):
    """Meanwhile the current folder is a new one with the store that inputs among the examples make, each with its words."""
    with tempfile.TemporaryDirectory() as folder, contextlib.chdir(folder):
        for name, *words in runs:
            served(program, words, (TOP / 'examples' / name).read_bytes())
        yield


def example_pictures(program):
    """Each picture of the examples, with the name of its file."""
    with store_of(program, FIX):
        line = ('3', 'encrypted=on,phone=on', '/send')
        yield 'fix-line.dot', dot_of_line(program, *line)
        yield 'fix-line.svg', picture_of_line(program, *line)
        yield 'fix-page.html', page_of_file(program, 'encrypted=on,phone=on', '/send', ())
    with store_of(program, READER):
        line = ('139', 'SEARCH=on,LOG=on', '/reader.c')
        yield 'reader-line.dot', dot_of_line(program, *line)
        yield 'reader-line.svg', picture_of_line(program, *line)
        rules = [TOP / 'examples' / 'reader.script']
        yield 'reader-page.html', page_of_file(program, 'ENCRYPTED=on,PHONE=on,SEARCH=on', '/reader.c', rules)
    for name, heading in TABLES:
        yield name + '.svg', plot_of_table(TOP / 'bench' / 'README.md', heading)


def write_examples(program, folder):
    pathlib.Path(folder).mkdir(exist_ok=True)
    for name, made in example_pictures(program):
        (pathlib.Path(folder) / name).write_bytes(made.encode())


def words():
    parser = argparse.ArgumentParser(description=__doc__, formatter_class=argparse.RawDescriptionHelpFormatter)
    parser.add_argument('--program', default=TOP / 'covstore', help='a built program, ./covstore of this checkout if not given')
    kinds = parser.add_subparsers(dest='kind', required=True)
    where = kinds.add_parser('where', help='in which choices a line is, as SVG')
    where.add_argument('--dot', action='store_true', help='the text for Graphviz')
    for name in ('lineno', 'choice', 'path'):
        where.add_argument(name, metavar=name.upper())
    of_file = kinds.add_parser('page', help='a file with its variants, as HTML')
    of_file.add_argument('choice', metavar='CHOICE')
    of_file.add_argument('path', metavar='PATH')
    of_file.add_argument('--rules', metavar='SCRIPT', nargs='+', default=(), help='scripts with the constraints of the store')
    of_table = kinds.add_parser('plot', help='figures beside their limits, as SVG')
    of_table.add_argument('file', metavar='FILE')
    of_table.add_argument('heading', metavar='HEADING', nargs='?', default='')
    examples = kinds.add_parser('examples', help='the pictures that are kept')
    examples.add_argument('folder', metavar='FOLDER', nargs='?', default=TOP / 'docs' / 'pictures')
    return parser.parse_args()


def made_picture(given, program):
    """The picture that the words ask for, or nothing where files are written."""
    if given.kind == 'where':
        return (dot_of_line if given.dot else picture_of_line)(program, given.lineno, given.choice, given.path)
    if given.kind == 'page':
        return page_of_file(program, given.choice, given.path, given.rules)
    if given.kind == 'plot':
        return plot_of_table(given.file, given.heading)
    return write_examples(program, os.path.abspath(given.folder))


def main():
    given = words()
    try:
        sys.stdout.buffer.write((made_picture(given, os.path.abspath(given.program)) or '').encode())
    except (Fault, OSError, subprocess.CalledProcessError) as fault:
        sys.exit('pictures.py: %s' % fault)


if __name__ == '__main__':
    main()
