#!/usr/bin/env python3
"""Times `covstore demo 7` in an empty folder beside git and unifdef (both of Debian), which keep the same history, compares the trees
that they write, and tells where its instructions go."""
from generated import CHOICES, FILES, FOLDERS, commits
from timing import RAM_DISK, Figure, build, elsewhere, in_unit, inclusive, least, ratio, tell, told, tree
from variants import COMMITS, TREES, as_author, by_git, digest

NUMBER, REPETITIONS = '7', 5
# Functions that do parts of the work, none of which calls another.
PARTS = {'making the text': 'demonstration::append_commits', 'what sessions and checkouts see': 'Engine::view',
         'the edits of sessions': 'ServerState::edit', 'making commands ready': 'state::make_ready', 'installing them': 'installing::add',
         'sweeps': 'sweep', 'SHA-256': 'Core256::update'}


def by_store(program):
    """The clock of a run, and the trees, which are those that the replies tell."""
    with elsewhere(RAM_DISK):
        clock, out = told(program, 'demo', NUMBER)
        trees = [tree(name) for name in TREES]
    checkouts = ['ok checkout t%d %d %d %s' % (number, FOLDERS, FILES, digest(rows)) for number, rows in enumerate(trees)]
    assert out.decode().splitlines() == checkouts + ['ok demo ' + NUMBER]
    return clock, trees


def clocks(program, made):
    (clock, trees), (other, _, others) = by_store(program), by_git(made)
    assert trees == others, 'the trees are the same'
    return clock, other


def shares(program):
    total, within = inclusive([program, 'demo', NUMBER])
    for part, name in PARTS.items():
        yield Figure('of its instructions, ' + part, within(name) / total, '', '', True, '%s of %s' % (in_unit(within(name)), in_unit(total)))


def figures(program):
    as_author()
    rounds = [clocks(program, commits(COMMITS)) for _ in range(REPETITIONS)]
    times = [ratio('demo %s to git and unifdef, %s' % (NUMBER, kind), *taken, 's') for kind, taken in least(rounds)]
    return times + list(shares(program))


if __name__ == '__main__':
    tell(figures(build()))
