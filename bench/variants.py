#!/usr/bin/env python3
"""Times the generated script on `covstore run` beside git and unifdef (both of Debian), which keep the same product as files with
blocks of `#if`, and compares the trees that they write."""
import copy
import hashlib
import os

from generated import CHOICES, FILES, FOLDERS, OPTIONS, commits, conditional, history, path_of
from timing import RAM_DISK, Clock, as_script, build, clocked, elsewhere, least, ratio, tell, tree

COMMITS, REPETITIONS = 400, 5
TREES = ['trees/t%d' % number for number in range(len(CHOICES))]


def digest(rows):
    """The digest of a tree, as the reply to a checkout tells it."""
    told = hashlib.sha256()
    for path in sorted(rows):
        told.update(b'd' if rows[path] is None else b'f')
        for part in [path] if rows[path] is None else [path, rows[path]]:
            told.update(len(part).to_bytes(8, 'big') + part)
    return told.hexdigest()


def by_store(program, made):
    """The clocks of a run and of one without checkouts, and the trees, which are those that the replies tell."""
    lines = history(made)
    with elsewhere(RAM_DISK):
        without, _ = clocked(lines, program)
    with elsewhere(RAM_DISK):
        whole, out = clocked(lines + ['checkout t%d %s' % pair for pair in enumerate(CHOICES)], program)
        trees = [tree(name) for name in TREES]
    told = ['ok checkout t%d %d %d %s' % (number, FOLDERS, FILES, digest(rows)) for number, rows in enumerate(trees)]
    assert out.decode().splitlines()[-len(told):] == told
    return whole, without, trees


def write(path, lines):
    with open(path, 'wb') as file:
        as_script(lines, file)


def by_git(made):
    """The clocks of git and unifdef, with and without the checkouts, and the trees. What the files hold before each commit is
    written while no clock runs."""
    paths = [path_of(file) for file in range(FILES)]
    with elsewhere(RAM_DISK):
        for name in TREES + ['store/d%d' % folder for folder in range(FOLDERS)]:
            os.makedirs(name)
        for path in paths:
            write('store' + path, [])
        for number, choice in enumerate(CHOICES):
            on = ['o5', choice.partition('=')[0]]
            write('options%d' % number, ['#define o%d %d' % (option, 'o%d' % option in on) for option in range(OPTIONS)])
        clock = Clock()
        clock.run('git', 'init', '-q', 'store')
        clock.run('git', '-C', 'store', 'add', '-A')
        clock.run('git', '-C', 'store', 'commit', '-q', '-m', 'files')
        for path, lines in conditional(made):
            write('store' + path, lines)
            clock.run('git', '-C', 'store', 'commit', '-q', '-a', '-m', path)
        without = copy.copy(clock)
        for number, name in enumerate(TREES):
            clock.run('git', '--git-dir=store/.git', '--work-tree=' + name, 'checkout', '-q', '-f', 'HEAD', '--', '.')
            clock.run('unifdef', '-t', '-m', '-x2', '-f', 'options%d' % number, *(name + path for path in paths))
        return clock, without, [tree(name) for name in TREES]


def clocks(program, made):
    """The clocks of the store, with and without the checkouts, and those of git and unifdef."""
    (*ours, trees), (*theirs, others) = by_store(program, made), by_git(made)
    assert trees == others, 'the trees are the same'
    return ours + theirs


def of_kind(kind, whole, without, others, others_without):
    """The figures of a kind of time, from the least of each clock."""
    checkouts, others_checkouts = 1000 * (whole - without), 1000 * (others - others_without)
    return [ratio('a run to git and unifdef, %s (aim 0.06)' % kind, whole, others, 's', 0.08),
            ratio('its checkouts to theirs, ' + kind, checkouts, others_checkouts, 'ms')]


def as_author():
    """From now on git commits in the name of the bench, and reads no settings."""
    os.environ.update(GIT_CONFIG_GLOBAL='/dev/null', GIT_CONFIG_NOSYSTEM='1')
    for person in 'AUTHOR', 'COMMITTER':
        os.environ.update({'GIT_%s_NAME' % person: 'bench', 'GIT_%s_EMAIL' % person: 'bench'})


def figures(program):
    as_author()
    made = commits(COMMITS)
    rounds = [clocks(program, made) for _ in range(REPETITIONS)]
    return [figure for kind, taken in least(rounds) for figure in of_kind(kind, *taken)]


if __name__ == '__main__':
    tell(figures(build()))
