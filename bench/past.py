#!/usr/bin/env python3
"""Times `blame`, `log` and `past` of `covstore run` over the store of the generated script beside `git blame` and `git log` of Debian's git,
which keeps the same product as files with blocks of `#if`, and beside a `cat` for which nothing is kept."""
import os

from conditions import answers, holds
from generated import CHOICES, FILES, FOLDERS, LINES, OPTIONS, Random, commits, conditional, history, path_of
from projection import as_choice
from timing import RAM_DISK, Clock, build, clocked, elsewhere, least, ratio, tell, told
from variants import as_author, write

COMMITS, POSITION, ASKED, LOGS, REPETITIONS = 400, 200, 256, 50, 5
FIRST = history([]).index('open s - for true') + 1  # the position of the commit that makes the files
CHANGED = [path_of(file) for file in range(FILES)]  # the files whose lines are told
OFF = ('o0', 'o2')  # with these off a choice is valid


def position(number):
    """The position of a commit of the script by its number."""
    return FIRST + number


def fresh():
    """Random choices that bind each option, none of which was shown, each with a path."""
    draw, names = Random(), ['o%d' % option for option in range(OPTIONS)]
    for number in range(ASKED):
        values = {name: bool(draw.below(2)) and name not in OFF for name in names}
        yield '%s %s' % (as_choice(values), CHANGED[number % len(CHANGED)])


def questions():
    """Lines by what is asked. Those on random choices are in runs of their own, so that nothing is kept for their choices."""
    pairs = list(fresh())
    return {'blame': ['blame %s %s' % (choice, path) for choice in CHOICES for path in CHANGED],
            'log': ['log ' + choice for choice in CHOICES] * LOGS,
            'past': ['past %d %s' % (POSITION, pair) for pair in pairs],
            'last': ['past %d %s' % (position(COMMITS), pair) for pair in pairs],
            'cat': ['cat ' + pair for pair in pairs]}


def in_git(*words):
    return ('git', '-C', 'kept', *words)


def blame_by_git(path):
    return in_git('blame', 'HEAD', '--', path[1:])


def keep_in_git(made):
    """Makes the repository `kept` of the files that have blocks of `#if`, one commit for each of the script, and packs it."""
    clock = Clock()
    for folder in range(FOLDERS):
        os.makedirs('kept/d%d' % folder)
    for file in range(FILES):
        write('kept' + path_of(file), [])
    clock.run('git', 'init', '-q', 'kept')
    clock.run(*in_git('add', '-A'))
    clock.run(*in_git('commit', '-q', '-m', 'files'))
    for path, lines in conditional(made):
        write('kept' + path, lines)
        clock.run(*in_git('commit', '-q', '-a', '-m', path))
    clock.run(*in_git('gc', '-q'))


def rows_of(program, lines):
    """The rows of each reply."""
    return [rows for _, rows in answers(clocked(lines, program)[1])]


def reached(made, completed):
    """What `log` is to tell of a whole choice."""
    values = {name: value == 'on' for name, value in (binding.split('=') for binding in completed.split(','))}
    yield b'%d %d' % (FIRST, FOLDERS + FILES)
    for commit in made:
        if holds(commit.ambition, values):
            yield b'%d %d' % (position(commit.number), LINES + (commit.deleted > 0))


def check(program, made, asked):
    """That the store's lines, of now and of then, come from the commits that put them in, and that git has as many commits and lines."""
    blamed = [[row.split(b' ') for row in rows] for rows in rows_of(program, asked['blame'])]
    shown = rows_of(program, ['cat' + line.removeprefix('blame') for line in asked['blame']])
    assert [[b' '.join(words[1:]) for words in rows] for rows in blamed] == shown, 'the lines are those that are shown'
    assert all(int(words[0]) == position(int(words[3])) for rows in blamed for words in rows), 'the text of a line names its commit'
    _, out = clocked(['complete ' + choice for choice in CHOICES], program)
    expected = [list(reached(made, line.removeprefix('ok '))) for line in out.decode().splitlines()]
    assert rows_of(program, asked['log']) == expected * LOGS, 'the commits are those whose ambition is true'
    assert rows_of(program, asked['last']) == rows_of(program, asked['cat']), 'the last position is now'
    with elsewhere(RAM_DISK):
        clocked(history(made[:POSITION - FIRST]), program)
        then = rows_of(program, asked['cat'])
    assert rows_of(program, asked['past']) == then, 'the past is what it was'
    assert len(told(*in_git('log', '--oneline'))[1].splitlines()) == 1 + COMMITS, 'git has each commit'
    files = dict(conditional(made))
    assert all(len(told(*blame_by_git(path))[1].splitlines()) == len(files.get(path, [])) for path in CHANGED), 'git has each line'


def clocks(program, asked):
    """The clocks of a run over the store without a line, of one for each kind of line, and of git's on each file and on the commits."""
    blame, log = Clock(), Clock()
    ours = [clocked(lines, program)[0] for lines in ([], *asked.values())]
    with open('told', 'wb') as out:
        for path in CHANGED:
            blame.run(*blame_by_git(path), out=out)
        for _ in range(LOGS):
            log.run(*in_git('log', '--oneline'), out=out)
    return *ours, blame, log


def figures(program):
    as_author()
    made, asked = commits(COMMITS), questions()
    with elsewhere(RAM_DISK):
        clocked(history(made), program)
        keep_in_git(made)
        check(program, made, asked)
        without, *taken, blame, log = dict(least([clocks(program, asked) for _ in range(REPETITIONS)]))['processor']
    each = {kind: 1000 * (seconds - without) / len(asked[kind]) for kind, seconds in zip(asked, taken)}
    return [
        ratio('`blame` of a file, to `git blame`', each['blame'], 1000 * blame / len(CHANGED), 'ms', 0.33),
        ratio('`log`, to `git log --oneline`', each['log'], 1000 * log / LOGS, 'ms', 1),
        ratio('`past %d`, to a `cat` for which nothing is kept' % POSITION, each['past'], each['cat'], 'ms', 1.2),
        ratio('`past` of the last position, to a `cat` for which nothing is kept', each['last'], each['cat'], 'ms'),
    ]


if __name__ == '__main__':
    tell(figures(build()))
