#!/usr/bin/env python3
"""Times 1,000 durable commits of one line each beside a loop in C that writes and syncs records of the same size, in turns."""
import os
import tempfile

from timing import Clock, build, clocked, compiled, each_beside, elsewhere, tell

COMMITS, REPETITIONS = 1000, 3


def lines(count):
    yield from ('open s - for true', 'mkfile s /m', 'commit s')
    for number in range(count):
        yield from ('open s - for true', 'insert s /m 0 line %d of the file' % number, 'commit s')


def stored(program, count):
    """The clock of a run with so many commits, and the size of the store that it leaves."""
    with elsewhere():
        clock, _ = clocked(list(lines(count)), program)
        return clock, os.path.getsize('store.cov')


def clocks(program, peer):
    """The clocks of a run without the commits, of one with them, and of the loop in C."""
    once, before = stored(program, 0)
    often, size = stored(program, COMMITS)
    loop = Clock()
    with elsewhere(), tempfile.TemporaryFile() as out:
        loop.run(peer, 'records', str(COMMITS), str((size - before) // COMMITS), out=out)
    return once, often, loop


def figures(program):
    with compiled('durable') as peer:
        rounds = [clocks(program, peer) for _ in range(REPETITIONS)]
    return list(each_beside('a durable commit to the loop in C', rounds, COMMITS, {'elapsed': 1.3}))


if __name__ == '__main__':
    tell(figures(build()))
