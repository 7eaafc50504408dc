#!/usr/bin/env python3
"""Times `covstore import` of a text of 16,000 lines in 80 blocks beside one projection of it by Debian's unifdef, and `cond` of a file of
100,000 lines beside a `cat` of it for which nothing is kept."""
import shutil
import statistics

from conditions import answers
from generated import Random
from projection import ASKED, LINES, ON, OPTIONS, as_choice, by_unifdef, conditional, history, parts, test_of
from timing import RAM_DISK, Clock, as_script, ask, build, clocked, elsewhere, ratio, started, tell

IMPORTED, IMPORTED_BLOCKS, REPETITIONS = 16_000, 80, 5
NAMES = ['o%d' % option for option in range(OPTIONS)]


def question(keyword, on):
    return '%s %s /file' % (keyword, as_choice({name: name in on for name in NAMES}))


def rows_told(out):
    """The rows of each reply that has rows."""
    return [rows for _, rows in answers(out) if rows is not None]


def texts(rows):
    """The texts that a `cat` told."""
    return [row.partition(b' ')[2] for row in rows]


def imported(program, file, expected):
    """The least processor seconds of an import of the file into a store of its options, after which a variant has the expected texts."""
    taken = []
    with elsewhere(RAM_DISK):
        clocked(['option ' + name for name in NAMES], program)
        shutil.copy('store.cov', 'options')
        with open('text', 'w+b') as text, open('replies', 'wb') as replies:
            as_script(conditional(file), text)
            for _ in range(REPETITIONS):
                shutil.copy('options', 'store.cov')
                text.seek(0)
                clock = Clock()
                clock.run(program, 'import', '/file', source=text, out=replies)
                taken.append(clock.processor)
        _, out = clocked([question('cat', ON)], program)
        assert texts(rows_told(out)[0]) == expected, 'the same lines are shown'
    return min(taken)


def projected(rows, on):
    """The texts of a conditional text whose blocks have no `#else` and don't nest."""
    values, is_shown = {name: name in on for name in NAMES}, True
    for row in rows:
        if row == b'#endif':
            is_shown = True
        elif row.startswith(b'#if '):
            is_shown = eval(test_of(row[4:].decode()), {}, values)
        elif is_shown:
            yield row


def choices():
    """Random choices, for none of which a list is kept."""
    draw = Random()
    return [[name for name in NAMES if draw.below(2)] for _ in range(ASKED)]


def agree(program, lines, asked):
    """Whether the conditional text of the file has in each choice the texts that `cat` tells."""
    _, out = clocked(lines + [question('cond', ON)] + [question('cat', on) for on in asked], program)
    told, *shown = rows_told(out)
    return len(shown) == len(asked) and all(list(projected(told, on)) == texts(rows) for on, rows in zip(asked, shown))


def told_and_shown(program, lines, asked):
    """The median processor seconds of a `cond` and of a `cat`, on each of the choices."""
    with started(program) as child:
        for line in lines:
            ask(child, line)
        return map(statistics.median, zip(*((ask(child, question('cond', on)), ask(child, question('cat', on))) for on in asked)))


def figures(program):
    file = parts(IMPORTED, IMPORTED_BLOCKS)
    other, expected = by_unifdef(file, NAMES)
    ours = imported(program, file, expected)
    lines, asked = history(parts()), choices()
    with elsewhere():
        assert agree(program, lines, asked), 'the conditional text has the texts of each choice'
    cond, cat = told_and_shown(program, lines, asked)
    return [
        ratio('`import` of %d lines in %d blocks, to one projection by unifdef' % (IMPORTED, IMPORTED_BLOCKS), 1000 * ours, 1000 * other, 'ms', 20),
        ratio('`cond` of a file of %d lines, to a `cat` for which nothing is kept' % LINES, 1000 * cond, 1000 * cat, 'ms', 10),
    ]


if __name__ == '__main__':
    tell(figures(build()))
