#!/usr/bin/env python3
"""Times the line `commit` of a session that inserted 16 lines into one file, and of one that inserted 16,384."""
import statistics

from timing import ask, at_most, build, in_unit, started, tell

COUNTS, SESSIONS = (16, 16384), 5


def seconds(program, count):
    """The median seconds of `commit` over sessions that each insert so many lines into a file of their own."""
    taken = []
    with started(program) as child:
        ask(child, 'open start - for true')
        for i in range(SESSIONS):
            ask(child, 'mkfile start /f%d' % i)
        ask(child, 'commit start')
        for i in range(SESSIONS):
            ask(child, 'open s - for true')
            for j in range(count):
                ask(child, 'insert s /f%d %s line %d' % (i, '+%d' % (j - 1) if j else '0', j))
            taken.append(ask(child, 'commit s'))
    return statistics.median(taken)


def figures(program):
    few, many = (seconds(program, count) for count in COUNTS)
    parts = '%s of 16, %s of 16,384' % (in_unit(1e6 * few, 'us'), in_unit(1e3 * many, 'ms'))
    return [at_most('`commit`, each insert more', 1e6 * (many - few) / (COUNTS[1] - COUNTS[0]), 2, 'us', parts)]


if __name__ == '__main__':
    tell(figures(build()))
