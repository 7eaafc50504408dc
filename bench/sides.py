#!/usr/bin/env python3
"""Counts what a commit of many edits on one side takes beside one whose edits have none, and one whose edits have two sides in turns."""
from timing import build, counted, ratio, tell

FILES, EDITS = 100, 16_000
NONE, ONE, TURNS = (), ('a',), ('a', 'b')


def store():
    """Two options, and files in one commit."""
    files = ['mkfile start /f%d' % file for file in range(FILES)]
    return ['option a', 'option b', 'open start a=on,b=on for true'] + files + ['commit start']


def session(sides, last):
    """A session of many inserts, each on the next of the sides, and a last line."""
    made = ['open s a=on,b=on for true']
    for edit in range(EDITS):
        if len(sides) > 1 or edit == 0:
            made += ['side s %s' % side for side in sides[edit % max(len(sides), 1):][:1]]
        made.append('insert s /f%d 0 line %d' % (edit % FILES, edit))
    return made + [last]


def instructions(program, sides):
    """The instructions of a commit, and of its session with it."""
    opened = counted(store(), program)[0]
    dropped = counted(store() + session(sides, 'drop s'), program)[0]
    committed = counted(store() + session(sides, 'commit s'), program)[0]
    return committed - dropped, committed - opened


def figures(program):
    commit, whole = instructions(program, NONE)
    on_one, whole_on_one = instructions(program, ONE)
    on_two, whole_on_two = instructions(program, TURNS)
    return [
        ratio('a commit of %d edits on one side to one without' % EDITS, on_one, commit, 'instructions', 1.2),
        ratio('with its session', whole_on_one, whole, 'instructions'),
        ratio('a commit of %d edits on two sides in turns to one without' % EDITS, on_two, commit, 'instructions'),
        ratio('with its session, which has %d lines `side`' % EDITS, whole_on_two, whole, 'instructions'),
    ]


if __name__ == '__main__':
    tell(figures(build()))
