#!/usr/bin/env python3
"""Times a million lines put in order by cov_order, each after line 1 or after a drawn one, beside pages in C, in turns in one run."""
from timing import beside, build_crate, compiled, ratio, tell

COUNT = '1000000'
REPETITIONS = 15


def compare(program, peer, name, *words):
    ours, theirs = beside(REPETITIONS, [program, COUNT, *words], [peer, COUNT, *words])
    return [ratio('to C, each line after ' + name, ours, theirs, 's', 3)]


def figures(program):
    with compiled('order') as peer:
        return compare(program, peer, 'line 1') + compare(program, peer, 'a drawn line', 'drawn')


if __name__ == '__main__':
    tell(figures(build_crate('cov_order_bench')))
