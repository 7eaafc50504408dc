#!/usr/bin/env python3
"""Counts and times the line `commit` of a session with 5,000 commits of other files after its base, and with none."""
import statistics

from timing import ask, build, counted, ratio, started, tell

OTHERS, COMMITS, SESSIONS = 10, 5000, 60


def store():
    """A file for each session, and others."""
    lines = ['option phone', 'open start phone=off for true']
    lines += ['mkfile start /f%d' % i for i in range(SESSIONS)] + ['mkfile start /g%d' % i for i in range(OTHERS)]
    return lines + ['commit start']


def others():
    """Commits of other files than those of the sessions. Each takes out the line that was put into its file before, so that a session
    doesn't see thousands of lines when it is opened."""
    lines = []
    for i in range(COMMITS):
        file, older = '/g%d' % (i % OTHERS), i - OTHERS + 1
        taken_out = ['delete other %s %d' % (file, older)] if older > 0 else []
        lines += ['open other phone=on for phone', 'insert other %s 0 a line' % file, *taken_out, 'commit other']
    return lines


def begun(number):
    return ['open s%d phone=on for true' % number, 'insert s%d /f%d 0 a line' % (number, number)]


def seconds(program, is_before):
    """The median seconds of `commit`, of sessions that are opened before the commits of other files or after them."""
    opened = [line for number in range(SESSIONS) for line in begun(number)]
    lines = store() + (opened + others() if is_before else others() + opened)
    with started(program) as child:
        for line in lines:
            ask(child, line)
        return statistics.median(ask(child, 'commit s%d' % number) for number in range(SESSIONS))


def instructions(program, is_before):
    """The instructions of a run less those of one that says `drop` in the place of the last `commit`."""
    lines = store() + (begun(0) + others() if is_before else others() + begun(0))
    commit, drop = (counted(lines + [last + ' s0'], program)[0] for last in ('commit', 'drop'))
    return commit - drop


def figures(program):
    few, many = (instructions(program, is_before) for is_before in (False, True))
    short, long = (1e6 * seconds(program, is_before) for is_before in (False, True))
    return [ratio('`commit` above `drop`, 5,000 commits after the base to none', many, few, 'instructions', 1.5),
            ratio('`commit`, 5,000 commits after the base to none', long, short, 'us')]


if __name__ == '__main__':
    tell(figures(build()))
