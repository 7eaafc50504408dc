#!/usr/bin/env python3
"""Counts the instructions of a plan by cov_tree that renames one file, in directories of 100 and of 10,000 files, and those that its
test for soundness adds."""
from timing import build_crate, instructions, ratio, tell

SIZES = (100, 10000)
FEW, MANY = 1, 33


def each_rename(program, files, *tested):
    few, many = (instructions([program, str(files), str(renames), *tested])[0] for renames in (FEW, MANY))
    return (many - few) / (MANY - FEW)


def figures(program):
    few, many = (each_rename(program, files) for files in SIZES)
    tested_few, tested_many = (each_rename(program, files, 'tested') for files in SIZES)
    return [ratio('a plan, 10,000 files to 100', many, few, 'instructions', 3),
            ratio('its test, 10,000 files to 100', tested_many - many, tested_few - few, 'instructions')]


if __name__ == '__main__':
    tell(figures(build_crate('cov_tree_bench')))
