#!/usr/bin/env python3
"""Tells what a store takes that is larger than one without an upgrade may be: 70,000 files in 100 directories, and 1,056,000 lines in
1,000 of the files, 64 bytes each with its number. One run makes it, `check` reads it, and a run after it tells a file and writes a tree."""
import tempfile

from timing import RAM_DISK, as_script, build, clocked, elsewhere, no_limit, tell, time_and_peak, told

DIRECTORIES, FILES, OF_COMMIT = 100, 700, 14_000
LINED, LINES, LINES_OF_COMMIT, TEXT = 1_000, 1_056_000, 16_000, 56


def path(file):
    """The path of a file by its number."""
    return '/d%d/f%d' % (file % DIRECTORIES, file)


def session(edits):
    return ['open s - for true', *edits, 'commit s']


def nodes():
    """The upgrade, and the commits that make the directories and files."""
    lines = ['upgrade'] + session('mkdir s /d%d' % number for number in range(DIRECTORIES))
    made = DIRECTORIES * FILES
    for first in range(0, made, OF_COMMIT):
        lines += session('mkfile s ' + path(file) for file in range(first, min(first + OF_COMMIT, made)))
    return lines


def texts():
    """The commits that put the lines at the heads of their files."""
    lines = []
    for first in range(0, LINES, LINES_OF_COMMIT):
        lines += session('insert s %s 0 %s' % (path(line % LINED), ('%d ' % line).ljust(TEXT, 'x')) for line in range(first, first + LINES_OF_COMMIT))
    return lines


def figures(program):
    with elsewhere(RAM_DISK):
        made, _ = clocked(nodes(), program)
        with tempfile.TemporaryFile() as source:
            as_script(texts(), source)
            lined, peak = time_and_peak([program, 'run'], source)
        checked, reply = told(program, 'check')
        commits = 1 + DIRECTORIES * FILES // OF_COMMIT + LINES // LINES_OF_COMMIT
        assert reply == b'ok %d records\n' % (1 + commits), 'all records are read'
        asked, out = clocked(['cat - ' + path(0)], program)
        assert out.startswith(b'ok %d\n' % (LINES // LINED)), 'all lines are told'
        written, out = clocked(['checkout t -'], program)
        assert out.startswith(b'ok checkout t %d %d ' % (DIRECTORIES, DIRECTORIES * FILES)), 'all files are written'
    return [
        no_limit('a run that makes the nodes', made.elapsed, 's'),
        no_limit('a run that makes the lines', lined, 's'),
        no_limit('its peak', peak, 'MB'),
        no_limit('`check` of the store', checked.elapsed, 's'),
        no_limit('a run with one `cat`', asked.elapsed, 's'),
        no_limit('a run with one `checkout`', written.elapsed, 's'),
    ]


if __name__ == '__main__':
    tell(figures(build()))
