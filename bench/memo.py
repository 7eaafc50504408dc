#!/usr/bin/env python3
"""Counts the calls of `Table::and` in runs of `covstore run`, and those that need no work: its memo has their result, or the two
nodes tell it."""
import re
import tempfile

from completion import OPTIONS, rules
from generated import commits, history
from renames import script
from timing import Figure, as_script, build, calls, tell

COMMITS, WINDOW, COMPLETED, RENAMES = 400, 16, 100, 64
RUNS = {'the generated script': lambda: history(commits(COMMITS)),
        'renames under %d ambitions' % RENAMES: lambda: script(RENAMES),
        '%d completions, window %d' % (COMPLETED, WINDOW): lambda: rules(OPTIONS, WINDOW) + ['complete -'] * COMPLETED}


def is_call(name, *methods):
    return any(re.search(r'\bTable::%s\b' % method, name) for method in methods)


def share(name, made):
    """The share of conjunctions that go down no node."""
    asked = sum(count for (_, callee), count in made.items() if is_call(callee, 'and'))
    worked = sum(count for (caller, callee), count in made.items() if is_call(caller, 'and') and is_call(callee, 'combine', 'descend'))
    assert asked >= worked > 0
    return Figure('conjunctions that need no work, ' + name, (asked - worked) / asked, '', '', True, '%d of %d' % (asked - worked, asked))


def of_run(program, name, lines):
    with tempfile.TemporaryFile() as source:
        as_script(lines, source)
        return share(name, calls([program, 'run'], source))


def figures(program):
    return [of_run(program, name, lines()) for name, lines in RUNS.items()]


if __name__ == '__main__':
    tell(figures(build()))
