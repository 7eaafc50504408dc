#!/usr/bin/env python3
"""Counts what a session of one insert takes (open, insert, commit) in stores of few and of many lines, with one choice and with several
in turns, and in a store that grows; and times the opening of a choice that was shown before, in a store of a million lines."""
import statistics

from timing import ask, at_most, build, counted, no_limit, ratio, started, tell

FILES, FEW, MANY, ROUNDS = 100, 400, 30_000, 192
EARLY, LATE = 400, 6_400
HUGE_FILES, HUGE_LINES = 1_000, 1_000_000


def choices(count):
    """Choices of options, as many as are asked for, a power of two."""
    options = [number for number in range(count.bit_length() - 1)]
    return [','.join('o%d=%s' % (option, 'on' if turn >> option & 1 else 'off') for option in options) or '-' for turn in range(count)]


def store(files, lines, options):
    """Options, and files in which so many lines stand, those of each ten files in one commit."""
    made = ['option o%d' % option for option in range(options)]
    for first in range(0, files, 10):
        made.append('open start %s for true' % (','.join('o%d=off' % option for option in range(options)) or '-'))
        for file in range(first, first + 10):
            made += ['mkfile start /f%d' % file] + ['insert start /f%d 0 line %d of a file' % (file, i) for i in range(lines // files)]
        made.append('commit start')
    return made


def ambition(choice):
    """The expression that is true on a choice alone."""
    return ' & '.join(option[:-3] if option.endswith('=on') else '!' + option[:-4] for option in choice.split(',')) if choice != '-' else 'true'


def sessions(first, last, among):
    """Sessions of one insert, each on the next choice and into the next file; every other is meant for its choice alone."""
    made = []
    for turn in range(first, last):
        choice = among[turn % len(among)]
        made += ['open s %s for %s' % (choice, ambition(choice) if turn % 2 else 'true'), 'insert s /f%d 0 another line %d' % (turn % FILES, turn), 'commit s']
    return made


def a_session(program, lines, count):
    """The instructions of a session, once each choice has had a turn."""
    among = choices(count)
    before = store(FILES, lines, count.bit_length() - 1) + sessions(0, FILES, among)
    more = sessions(FILES, FILES + ROUNDS, among)
    return (counted(before + more, program)[0] - counted(before, program)[0]) / ROUNDS


def a_growing_session(program, first):
    """The instructions of a session in a store that has grown by one line a session so far."""
    before = store(FILES, FILES, 0) + sessions(0, first, choices(1))
    return (counted(before + sessions(first, first + ROUNDS, choices(1)), program)[0] - counted(before, program)[0]) / ROUNDS


def an_opening(program):
    """The median milliseconds of `open` on a choice that was shown before."""
    with started(program) as child:
        for line in store(HUGE_FILES, HUGE_LINES, 0) + ['open s - for true', 'drop s']:
            ask(child, line)
        times = []
        for _ in range(20):
            times.append(ask(child, 'open s - for true'))
            ask(child, 'drop s')
    return 1e3 * statistics.median(times)


def figures(program):
    told = []
    for count, limit in ((1, 1.5), (8, 1.5), (64, None)):
        name = 'a session of one insert, %d lines to %d, %d choices in turns' % (MANY, FEW, count)
        told.append(ratio(name, a_session(program, MANY, count), a_session(program, FEW, count), 'instructions', limit))
    told.append(ratio('a session, at %d commits to %d' % (LATE, EARLY), a_growing_session(program, LATE), a_growing_session(program, EARLY),
                      'instructions', 1.2))
    told.append(at_most('`open` of a choice shown before, %d lines in %d files' % (HUGE_LINES, HUGE_FILES), an_opening(program), 1, 'ms'))
    return told


if __name__ == '__main__':
    tell(figures(build()))
