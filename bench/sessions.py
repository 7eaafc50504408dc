#!/usr/bin/env python3
"""Counts and times lines of a session in a store of 20,000 lines, with 64 sessions open and with one."""
import statistics

from timing import ask, build, counted, no_limit, peak, ratio, started, tell

FILES, LINES, MOST, VISITS = 100, 200, 64, 3


def store():
    """The files with their lines, those of each ten files in one commit."""
    lines = []
    for first in range(0, FILES, 10):
        lines.append('open start - for true')
        for file in range(first, first + 10):
            lines += ['mkfile start /f%d' % file] + ['insert start /f%d 0 line %d of a file' % (file, i) for i in range(LINES)]
        lines.append('commit start')
    return lines


def opened(sessions):
    return ['open s%d - for true' % number for number in range(sessions)]


def asked(session, file, visit):
    """The lines of a turn, each with what it is: each form of an edit of lines, and what is shown. The first insert of a session into a
    file goes over its lines, which are named by their places from then on."""
    path, old = '/f%d' % file, file * LINES + 2 * visit + 1
    yield 'insert' if visit else 'first insert', 'insert s%d %s 0 another line' % (session, path)
    yield 'delete', 'delete s%d %s %d' % (session, path, old)
    yield 'replace', 'replace s%d %s %d a line in its place' % (session, path, old + 1)
    yield 'show', 'show s%d %s' % (session, path)
    yield 'list', 'list s%d /' % session


def turns(sessions, taking_turns):
    """What is asked of sessions that take turns, each in a file of its own, or of the last alone in these files."""
    for visit in range(VISITS):
        for file in range(MOST):
            yield from asked(file if taking_turns else sessions - 1, file, visit)


def seconds(program, sessions, taking_turns):
    """The median seconds of the lines by what they are, and the peak of memory in MB."""
    taken = {}
    with started(program) as child:
        for line in store() + opened(sessions):
            ask(child, line)
        for form, line in turns(sessions, taking_turns):
            taken.setdefault(form, []).append(ask(child, line))
        return {form: statistics.median(times) for form, times in taken.items()}, peak(child)


def instructions(program, sessions):
    """The instructions of a line of the last session, which are those of a run with its lines less those of a run without."""
    lines = store() + opened(sessions)
    more = [line for _, line in turns(sessions, False)]
    return (counted(lines + more, program)[0] - counted(lines, program)[0]) / len(more)


def figures(program):
    told = [ratio('a line, 64 open to 1', instructions(program, MOST), instructions(program, 1), 'instructions', 1.2)]
    alone, least = seconds(program, 1, False)
    told.append(no_limit('peak, 1 open', least, 'MB'))
    for name, taking_turns in (('64 open', False), ('64 in turns', True)):
        by_form, memory = seconds(program, MOST, taking_turns)
        told += [ratio('`%s`, %s to 1' % (form, name), 1e6 * taken, 1e6 * alone[form], 'us', None if form == 'first insert' else 1.2)
                 for form, taken in by_form.items()]
        told.append(ratio('peak, %s to 1 open' % name, memory, least, 'MB', None if taking_turns else 1.5))
    return told


if __name__ == '__main__':
    tell(figures(build()))
