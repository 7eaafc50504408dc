#!/usr/bin/env python3
"""Runs every bench once on a built program, and on one of before where that is given. It prints one table in Markdown, with each figure,
its limit and whether it is met, and ends with 1 where one isn't, or where a bench can't run."""
import argparse
import os
import subprocess
import sys
import time

import analysis
import checkout
import comments
import commits
import completion
import conditions
import conjunction
import damage
import demo
import directories
import durable
import imports
import inserts
import lines
import memo
import opening
import order
import overtaking
import past
import plans
import projection
import renames
import replica
import sessions
import sides
import stops
import sweeping
import touched
import upgraded
import variants
from timing import Figure, built_in, row, spelt, whether_met

# Each bench, with the crate whose program it runs.
BENCHES = ((comments, 'cov_cli'), (conjunction, 'cov_bench'), (sweeping, 'cov_bench'), (completion, 'cov_cli'), (memo, 'cov_cli'),
           (order, 'cov_order_bench'), (plans, 'cov_tree_bench'), (lines, 'cov_cli'), (commits, 'cov_cli'), (inserts, 'cov_cli'),
           (renames, 'cov_cli'), (directories, 'cov_cli'), (overtaking, 'cov_cli'), (sessions, 'cov_cli'), (sides, 'cov_cli'), (touched, 'cov_cli'), (variants, 'cov_cli'), (demo, 'cov_cli'),
           (checkout, 'cov_cli'), (projection, 'cov_cli'), (durable, 'cov_cli'), (opening, 'cov_cli'), (stops, 'cov_cli'),
           (damage, 'cov_cli'), (upgraded, 'cov_cli'), (conditions, 'cov_cli'), (imports, 'cov_cli'),
           (analysis, 'cov_cli'), (past, 'cov_cli'), (replica, 'cov_cli'))


def words():
    parser = argparse.ArgumentParser(description=__doc__)
    parser.add_argument('program', help='the built covstore')
    parser.add_argument('before', nargs='?', help='the built covstore of before')
    parser.add_argument('--crates', help='the folder of crates with the other built programs; that of the checkout of PROGRAM if not given')
    parser.add_argument('--crates-before', help='the same for BEFORE')
    parser.add_argument('--only', metavar='BENCH,..', help='these benches alone')
    return parser.parse_args()


def programs(covstore, crates):
    """The program of each crate whose program a bench runs."""
    covstore = os.path.realpath(covstore)
    crates = crates or os.path.join(os.path.dirname(covstore), '..', '..')
    made = {crate: os.path.abspath(built_in(crates, crate)) for _, crate in BENCHES}
    return {**made, 'cov_cli': covstore}


def measured(bench, program):
    """The figures of a bench, or one that isn't met where it can't run."""
    try:
        if not os.access(program, os.X_OK):
            raise FileNotFoundError("there is no program '%s'" % program)
        return bench.figures(program)
    except (OSError, subprocess.SubprocessError, AssertionError) as fault:
        return [Figure("can't run: " + ' '.join(str(fault).split()), None, '', 'to run', False)]


def tell_bench(bench, program, before):
    """Prints the rows of a bench; whether each limit is met."""
    figures = measured(bench, program)
    earlier = {figure.name: spelt(figure) for figure in measured(bench, before)} if before else {}
    for figure in figures:
        cells = bench.__name__, figure.name, spelt(figure), earlier.get(figure.name, ''), figure.limit, whether_met(figure)
        print(row(*cells), flush=True)
    return all(figure.met for figure in figures)


def main():
    given, start, load = words(), time.monotonic(), os.getloadavg()[0]
    now = programs(given.program, given.crates)
    before = programs(given.before, given.crates_before) if given.before else {}
    print(row('Bench', 'Figure', 'Now', 'Before', 'Limit', 'Met'))
    print('|---' * 6 + '|')
    only = given.only.split(',') if given.only else [bench.__name__ for bench, _ in BENCHES]
    met = [tell_bench(bench, now[crate], before.get(crate)) for bench, crate in BENCHES if bench.__name__ in only]
    print('\nLoad average %.1f at the start, %d processors; %.0f minutes.' % (load, os.cpu_count(), (time.monotonic() - start) / 60))
    return 0 if all(met) else 1


if __name__ == '__main__':
    sys.exit(main())
