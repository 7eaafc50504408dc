#!/usr/bin/env python3
"""Counts and times the line `commit` of a session that inserted one line, in a store of 100 files and in one of 10,000."""
import statistics

from timing import ask, build, counted, no_limit, ratio, started, tell

SIZES, SESSIONS = (100, 10000), 1000


def store(files):
    lines = ['option phone', 'open start phone=off for true']
    return lines + ['mkfile start /f%d' % i for i in range(files)] + ['commit start']


def session(file, last):
    return ['open s phone=on for phone', 'insert s /f%d 0 a line' % file, last + ' s']


def seconds(program, files):
    """The median seconds of `commit` and of `drop`, over sessions that end by turns with the one and the other in one run."""
    taken = {'commit': [], 'drop': []}
    with started(program) as child:
        for line in store(files):
            ask(child, line)
        for i in range(SESSIONS):
            for last in taken:
                taken[last].append([ask(child, line) for line in session(i % files, last)][-1])
    return statistics.median(taken['commit']), statistics.median(taken['drop'])


def instructions(program, files):
    """The instructions of a run less those of one that says `drop` in the place of the `commit` of a session: the first since the
    files were made, and the one after it."""
    counts = []
    for before in ([], session(1, 'commit')):
        commit, drop = (counted(store(files) + before + session(0, last), program)[0] for last in ('commit', 'drop'))
        counts.append(commit - drop)
    return counts


def of_insert(program):
    """The instructions of the line `insert`, the mean over sessions in the small store that are dropped with it or without."""
    sessions = [session(file, 'drop') for file in range(SIZES[0])]
    without = [line for begin, _, end in sessions for line in (begin, end)]
    within = [line for lines in sessions for line in lines]
    less, more = (counted(store(SIZES[0]) + lines, program)[0] for lines in (without, within))
    return (more - less) / SIZES[0]


def figures(program):
    few, many = (instructions(program, files) for files in SIZES)
    short, long = (seconds(program, files) for files in SIZES)
    told = [no_limit('`insert`, 100 files', of_insert(program), 'instructions'),
            no_limit('`commit` above `drop`, 100 files', few[1], 'instructions')]
    told += [ratio('%s `commit` above `drop`, 10,000 files to 100' % which, more, less, 'instructions', 1.5)
             for which, more, less in zip(('first', 'next'), many, few)]
    return told + [ratio('`%s`, 10,000 files to 100' % last, 1e6 * more, 1e6 * less, 'us')
                   for last, more, less in zip(('commit', 'drop'), long, short)]


if __name__ == '__main__':
    tell(figures(build()))
