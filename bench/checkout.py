#!/usr/bin/env python3
"""Times a checkout of the generated script's first tree by `covstore run` beside `cp -r` of that tree."""
import os

from generated import CHOICES, commits, history
from timing import RAM_DISK, Clock, build, clocked, each_beside, elsewhere, tell, tree

COMMITS, COPIES, REPETITIONS = 400, 50, 5


def clocks(program, lines):
    """The clocks of a run with one checkout, of one with COPIES more, and of as many copies."""
    checkouts = ['checkout t%d %s' % (number, CHOICES[0]) for number in range(COPIES + 1)]
    with elsewhere(RAM_DISK):
        once, _ = clocked(lines + checkouts[:1], program)
    with elsewhere(RAM_DISK):
        often, _ = clocked(lines + checkouts, program)
        os.mkdir('copies')
        copies = Clock()
        for number in range(1, COPIES + 1):
            copies.run('cp', '-r', 'trees/t0', 'copies/t%d' % number)
        assert all(tree(top + '/t%d' % COPIES) == tree('trees/t0') for top in ('trees', 'copies')), 'the trees are the same'
    return once, often, copies


def figures(program):
    lines = history(commits(COMMITS))
    rounds = [clocks(program, lines) for _ in range(REPETITIONS)]
    return list(each_beside('a checkout to `cp -r`', rounds, COPIES, {'elapsed': 2, 'processor': 2}))


if __name__ == '__main__':
    tell(figures(build()))
