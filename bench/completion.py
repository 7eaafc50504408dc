#!/usr/bin/env python3
"""Times `complete -` of `covstore run` over 64 options with a default each, after 256 random clauses as constraints, and over 128 options
of a store with an upgrade."""
import statistics

from generated import Random
from timing import ask, at_most, build, no_limit, started, tell

OPTIONS, UPGRADED, CLAUSES, ASKED = 64, 128, 256, 100


def clause(random, options, window):
    """Three options of a window, at least one of them on; the clauses are those of conjunction.c."""
    base, first = random.below(options - window + 1), random.below(window)
    second, third = 1 + random.below(window - 1), 1 + random.below(window - 2)
    third += third >= second
    signs = 1 + random.below(7)
    places = (first, (first + second) % window, (first + third) % window)
    return ' | '.join('%so%d' % ('' if signs >> i & 1 else '!', base + place) for i, place in enumerate(places))


def rules(options, window):
    random = Random()
    lines = ['upgrade'] * (options > OPTIONS)
    lines += ['option o%d' % i for i in range(options)] + ['default o%d off' % i for i in range(options)]
    return lines + ['constraint ' + clause(random, options, window) for _ in range(CLAUSES)]


def seconds(program, options, window):
    """What the rules take, and what `complete -` takes after them."""
    with started(program) as child:
        first = sum(ask(child, line) for line in rules(options, window))
        return first, statistics.median(ask(child, 'complete -') for _ in range(ASKED))


def of_window(program, window):
    first, each = seconds(program, OPTIONS, window)
    return [no_limit('the rules, window %d' % window, first, 's'), at_most('`complete -`, window %d' % window, 1000 * each, 0.2, 'ms')]


def upgraded(program, window):
    _, each = seconds(program, UPGRADED, window)
    return [no_limit('`complete -` over %d options, window %d' % (UPGRADED, window), 1000 * each, 'ms')]


def figures(program):
    return of_window(program, 16) + of_window(program, 24) + upgraded(program, 16)


if __name__ == '__main__':
    tell(figures(build()))
