#!/usr/bin/env python3
"""Compares what `analyse` of `covstore run` tells of random rules with what Debian's minisat says to the same questions, and times it, and
`nearest`, over 64 options and 256 clauses as constraints."""
import itertools
import random
import re
import statistics

from completion import clause
from conditions import answers
from generated import Random
from timing import RAM_DISK, Clock, as_script, ask, at_most, build, clocked, elsewhere, ratio, started, tell

SETS, OF_SET = 100, 30  # random sets of rules, and their options
OPTIONS, CLAUSES, WINDOWS, ASKED, REPETITIONS = 64, 256, (16, 24), 100, 5
MET, NOT_MET = 10, 20  # statuses of minisat
# Whether some choice meets the questions that a row answers, by its word.
TOLD = {b'dead': [True, False], b'forced': [False, True], b'free': [True, True], b'redundant': [False], b'needed': [True]}


def literals(constraint):
    """A clause as numbers: those of its options, from 1 on, or less than 0 where the option is off."""
    return [(1 + int(option)) * (-1 if sign else 1) for sign, option in re.findall(r'(!?)o(\d+)', constraint)]


def bound(choice):
    """A choice as such numbers."""
    return [(1 + int(option)) * (1 if value == 'on' else -1) for option, value in re.findall(r'o(\d+)=(on|off)', choice)]


def as_choice(numbers):
    return ','.join('o%d=%s' % (abs(number) - 1, 'on' if number > 0 else 'off') for number in numbers)


def declared(options, clauses):
    constraints = [' | '.join('%so%d' % ('!' if number < 0 else '', abs(number) - 1) for number in numbers) for numbers in clauses]
    return ['option o%d' % option for option in range(options)] + ['constraint ' + constraint for constraint in constraints]


def meets(choice, options, clauses):
    """Whether a choice binds each option and meets the clauses."""
    return [abs(number) for number in choice] == list(range(1, options + 1)) and all(set(numbers) & set(choice) for numbers in clauses)


def questions(options, clauses):
    """What is asked for each row of an analysis, in the order of its choices, each as clauses: whether some choice meets them."""
    for option in range(1, options + 1):
        yield [clauses + [[-option]], clauses + [[option]]]
    for place, numbers in enumerate(clauses):
        yield [clauses[:place] + clauses[place + 1:] + [[-number] for number in numbers]]


def by_minisat(options, asked):
    """The clock of minisat, called once for each question, and whether some choice meets it. The files are written before."""
    clock, files = Clock(), ['asked%d' % number for number in range(len(asked))]
    with elsewhere(RAM_DISK), open('told', 'wb') as out:
        for file, clauses in zip(files, asked):
            with open(file, 'wb') as source:
                as_script(['p cnf %d %d' % (options, len(clauses))] + ['%s 0' % ' '.join(map(str, numbers)) for numbers in clauses], source)
        return clock, [clock.run('minisat', '-verb=0', file, out=out, statuses=(MET, NOT_MET)) == MET for file in files]


def rows_of(program, options, clauses):
    """The words of each row that `analyse` tells."""
    with elsewhere():
        _, out = clocked(declared(options, clauses) + ['analyse'], program)
    return [row.split() for row in list(answers(out))[-1][1]]


def compared(program, options, clauses):
    """For each row of an analysis its word, and whether it says what minisat does, and its choices, if it has any, are ones that show it."""
    rows, asked = rows_of(program, options, clauses), list(questions(options, clauses))
    names = [b'o%d' % option for option in range(options)] + [b'%d' % (1 + place) for place in range(len(clauses))]
    assert [name for _, name, *_ in rows] == names, 'there is a row for each option and constraint'
    _, met = by_minisat(options, list(itertools.chain(*asked)))
    said = iter(met)
    for (word, _, *choices), of_row in zip(rows, asked):
        is_said = list(itertools.islice(said, len(of_row))) == TOLD[word]
        shows = len(choices) == (all(TOLD[word]) and len(of_row)) and all(
            meets(bound(choice.decode()), options, clauses) for choice, clauses in zip(choices, of_row))
        yield word.decode(), is_said and shows


def drawn(draw):
    """Clauses of three options each, which some choice meets."""
    while True:
        clauses = [[option * draw.choice((-1, 1)) for option in draw.sample(range(1, OF_SET + 1), 3)]
                   for _ in range(draw.randrange(OF_SET, 5 * OF_SET))]
        if by_minisat(OF_SET, [clauses])[1] == [True]:
            return clauses


def difference(program):
    """How many rows differ from what minisat says, of how many of each word."""
    rows = [row for number in range(SETS) for row in compared(program, OF_SET, drawn(random.Random(number)))]
    words = [word for word, _ in rows]
    counts = ['%d %s' % (words.count(word.decode()), word.decode()) for word in TOLD]
    name = 'options and constraints of %d random sets of rules that `analyse` takes for others than minisat' % SETS
    return at_most(name, sum(not is_right for _, is_right in rows), 0, parts='of ' + ', '.join(counts))


def answered_well(program, clauses, asked):
    """Whether each choice that `nearest` tells is valid, and differs on as many options as it says."""
    with elsewhere():
        _, out = clocked(declared(OPTIONS, clauses) + ['nearest ' + as_choice(choice) for choice in asked], program)
    told = [line.split() for line in out.decode().splitlines()[-len(asked):]]
    return all(meets(bound(choice), OPTIONS, clauses) and int(count) == len(set(bound(choice)) - set(given))
               for (_, _, count, choice), given in zip(told, asked))


def of_window(program, window):
    """Of the clauses of a window: `analyse` beside minisat, in turns, the least of each, and the median of `nearest` after a first one."""
    draw = Random()
    clauses = [literals(clause(draw, OPTIONS, window)) for _ in range(CLAUSES)]
    asked = [[option * (1 if draw.below(2) else -1) for option in range(1, OPTIONS + 1)] for _ in range(1 + ASKED)]
    assert all(is_right for _, is_right in compared(program, OPTIONS, clauses)), 'both say the same'
    assert answered_well(program, clauses, asked), 'what is told as nearest is valid'
    every = list(itertools.chain(*questions(OPTIONS, clauses)))
    with started(program) as child:
        for line in declared(OPTIONS, clauses):
            ask(child, line)
        rounds = [(ask(child, 'analyse'), by_minisat(OPTIONS, every)[0].processor) for _ in range(REPETITIONS)]
        _, *each = [ask(child, 'nearest ' + as_choice(choice)) for choice in asked]
    ours, other = map(min, zip(*rounds))
    return [ratio('`analyse`, window %d, to minisat on its %d questions' % (window, len(every)), 1000 * ours, 1000 * other, 'ms', 1),
            at_most('`nearest`, window %d' % window, 1000 * statistics.median(each), 5, 'ms')]


def figures(program):
    return [difference(program)] + [figure for window in WINDOWS for figure in of_window(program, window)]


if __name__ == '__main__':
    tell(figures(build()))
