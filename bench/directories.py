#!/usr/bin/env python3
"""Times two commits: one that makes 10,000 files in 100 directories, and one that renames a directory of them for some variants."""

from timing import at_most, build, no_limit, served, tell

DIRECTORIES, FILES, REPETITIONS = 100, 100, 5


def made(last):
    lines = ['option phone', 'open start phone=off for true']
    for i in range(DIRECTORIES):
        lines += ['mkdir start /d%d' % i] + ['mkfile start /d%d/f%d' % (i, j) for j in range(FILES)]
    return lines + [last + ' start']


def renamed(last):
    return made('commit') + ['open s phone=on for phone', 'rename s /d0 e', last + ' s']


def is_renamed(program):
    """Whether the files are in the directory of the new name where the option is on, and in that of the old one elsewhere."""
    shown = ['cat phone=%s /%s/f%d' % (side, name, i) for side, name in (('on', 'e'), ('off', 'd0')) for i in range(FILES)]
    return served(renamed('commit') + shown, program)[1].endswith(b'\nok commit 3\n' + b'ok 0\n' * len(shown))


def of_commit(program, name, lines):
    commit, drop = (min(served(lines(last), program)[0] for _ in range(REPETITIONS)) for last in ('commit', 'drop'))
    return [no_limit('a run, ' + name, commit, 's'), at_most('its `commit`, ' + name, commit - drop, 2, 's')]


def figures(program):
    assert is_renamed(program), 'the directory is renamed where the option is on'
    return of_commit(program, '10,000 files in 100 directories', made) + of_commit(program, 'a directory of them renamed', renamed)


if __name__ == '__main__':
    tell(figures(build()))
