#!/usr/bin/env python3
"""Compares what `covstore import` makes of random conditional texts with what Debian's unifdef and cpp make of them in C, and what `cond`
tells of the files of random histories with these files, once that is imported into a store of the same options and rules."""
import itertools
import os
import random
import re
import subprocess
import sys
from typing import NamedTuple

from projection import as_choice, test_of
from timing import RAM_DISK, TOP, at_most, build, elsewhere, tell, tree

sys.path.append(os.path.join(TOP, 'tools'))
import cond

NAMES = ('a', 'b', 'c', 'd', 'e')
STORES, TEXTS, DEEPEST, VARIANTS = 50, 20, 3, 4
HISTORIES, SESSIONS, EDITS, LINES = 300, 12, 40, 100
PATHS = ('/f0', '/f1', '/f2', '/f3')
SERVED, SOME_REFUSED = 0, 1  # statuses


class Rules(NamedTuple):
    """Constraints, and the values of the options in each valid choice."""
    constraints: list
    valid: list


def script(lines):
    return ''.join(line + '\n' for line in lines).encode()


def run(command, source, statuses=(SERVED,)):
    """What a command writes that ends with one of these statuses."""
    ended = subprocess.run(command, input=source, stdout=subprocess.PIPE)
    assert ended.returncode in statuses, '%s ends with %d' % (' '.join(command), ended.returncode)
    return ended.stdout


def holds(expression, values):
    return eval(test_of(expression), {}, {'true': True, 'false': False, **values})


def expression(draw, depth):
    form = draw.randrange(7) if depth else 0
    if form < 3:
        return draw.choice(NAMES * 3 + ('true', 'false'))
    if form == 3:
        return '!' + expression(draw, depth - 1)
    if form == 4:
        return '(%s)' % expression(draw, depth - 1)
    return '%s %s %s' % (expression(draw, depth - 1), draw.choice('&|'), expression(draw, depth - 1))


def rules(draw):
    """At most two constraints, which leave a variant."""
    made = Rules([], [dict(zip(NAMES, values)) for values in itertools.product((False, True), repeat=len(NAMES))])
    for constraint in (expression(draw, 2) for _ in range(draw.randrange(3))):
        left = [values for values in made.valid if holds(constraint, values)]
        made = Rules(made.constraints + [constraint], left) if left else made
    return made


def declared(made):
    return ['option ' + name for name in NAMES] + ['constraint ' + constraint for constraint in made.constraints]


def text(draw, depth):
    """The lines of a conditional text."""
    for _ in range(draw.randrange(5)):
        if depth and draw.randrange(2):
            yield '#if ' + expression(draw, 3)
            yield from text(draw, depth - 1)
            if draw.randrange(2):
                yield '#else'
                yield from text(draw, depth - 1)
            yield '#endif'
        else:
            yield '%sline %d' % (draw.choice(('', '##pragma ')), draw.randrange(1000))


def by_peers(source, values):
    """The texts that unifdef and cpp leave of a source in C."""
    defined = [('-D' if is_on else '-U') + name for name, is_on in values.items()]
    return [run([*peer, *defined], source) for peer in (('unifdef', '-t', '-k', '-x2'), ('cpp', '-P'))]


def projections(program, draw):
    """Of texts that are imported into one store, for some variants: the file's bytes, and what the peers leave. Every other text has gone
    through C and back by tools/cond.py before."""
    made = rules(draw)
    texts = [script(text(draw, DEEPEST)) for _ in range(TEXTS)]
    sources = [script(line.decode() for line in cond.to_c(lines).lines) for lines in texts]
    texts[::2] = [script(line.decode() for line in cond.from_c(source).lines) for source in sources[::2]]
    variants = draw.sample(made.valid, min(VARIANTS, len(made.valid)))
    with elsewhere(RAM_DISK):
        run([program, 'run'], script(declared(made)))
        for number, lines in enumerate(texts):
            run([program, 'import', '/t%d' % number], lines)
        run([program, 'run'], script('checkout v%d %s' % (number, as_choice(values)) for number, values in enumerate(variants)))
        trees = [tree('trees/v%d' % number) for number in range(len(variants))]
    for rows, values in zip(trees, variants):
        for number, source in enumerate(sources):
            yield rows[b't%d' % number], by_peers(source, values)


def edits(draw):
    """Random edits of one file. Those of lines of before are of any, seen or not, so that most are refused."""
    path = draw.choice(PATHS)
    for _ in range(EDITS):
        words = draw.choice(('', '#', '##', '#if a', '#else', ' #', 'text ', '\r')) + draw.choice(('', ' %d' % draw.randrange(10)))
        of_now, of_before = draw.choice(('0', '+%d' % draw.randrange(5))), 1 + draw.randrange(LINES)
        yield draw.choice(('side s ' + expression(draw, 2),
                           *['insert s %s %s %s' % (path, of_now, words)] * 2,
                           *['insert s %s %d %s' % (path, of_before, words)] * 2,
                           *['replace s %s %d %s' % (path, of_before, words)] * 2,
                           *['delete s %s %d' % (path, of_before)] * 3))


def history(draw, valid):
    """Sessions each under a random ambition, of which the first make a file each and the last one removes one."""
    for number in range(SESSIONS):
        values, ambition = draw.choice(valid), expression(draw, 2)
        yield 'open s %s for %s' % (as_choice(values), ambition if holds(ambition, values) else 'true')
        yield from ['mkfile s ' + path for path in PATHS[number:number + 1]]
        yield from edits(draw)
        yield from ['remove s ' + draw.choice(PATHS)] * (number == SESSIONS - 1)
        yield from ('commit s', 'drop s')


def answers(out):
    """Each reply with the rows that follow it."""
    lines = iter(out.split(b'\n')[:-1])
    for line in lines:
        counted = re.fullmatch(rb'ok (\d+)', line)
        yield line, [next(lines) for _ in range(int(counted[1]))] if counted else None


def asked(program, keyword, valid):
    """The reply, and the rows if there are any, for each path and each valid choice."""
    keys = list(itertools.product(PATHS, map(as_choice, valid)))
    out = run([program, 'run'], script('%s %s %s' % (keyword, choice, path) for path, choice in keys), (SERVED, SOME_REFUSED))
    replies = list(answers(out))
    assert len(replies) == len(keys), 'each line has a reply'
    return dict(zip(keys, replies))


def texts_in(cats):
    """The texts of each file that is there."""
    return {key: [row.partition(b' ')[2] for row in rows] for key, (_, rows) in cats.items() if rows is not None}


def exports(program, draw, made):
    """The texts of each file of a random history, by path and choice, and the conditional text of each, or None where it is too long."""
    with elsewhere(RAM_DISK):
        run([program, 'run'], script(declared(made) + list(history(draw, made.valid))), (SERVED, SOME_REFUSED))
        shown, conds = texts_in(asked(program, 'cat', made.valid)), asked(program, 'cond', made.valid)
    told = {}
    for path, choice in shown:
        line, rows = conds[path, choice]
        assert rows is not None or line.startswith(b'refused too-long'), line
        assert told.setdefault(path, rows) == rows, 'a file has one conditional text'
    return shown, told


def read_back(program, draw):
    """For each file of a random history and each valid choice where it is there: its texts, and those of its conditional text as imported
    into another store, or None where that is too long."""
    made = rules(draw)
    shown, told = exports(program, draw, made)
    with elsewhere(RAM_DISK):
        run([program, 'run'], script(declared(made)))
        for path, rows in told.items():
            if rows is not None:
                run([program, 'import', path], b''.join(row + b'\n' for row in rows))
        again = texts_in(asked(program, 'cat', made.valid))
    for key, texts in shown.items():
        yield texts, again[key] if told[key[0]] is not None else None


def figures(program):
    compared = [pair for store in range(STORES) for pair in projections(program, random.Random(store))]
    wrong = sum(ours != other for ours, others in compared for other in others)
    read = [pair for number in range(HISTORIES) for pair in read_back(program, random.Random(number))]
    lost = sum(again not in (texts, None) for texts, again in read)
    long = sum(again is None for _, again in read)
    return [
        at_most('projections of %d imported texts that are others than those of unifdef or cpp' % (STORES * TEXTS), wrong, 0,
                parts='of %d' % (2 * len(compared))),
        at_most('files of %d histories that are others once their conditional text is imported' % HISTORIES, lost, 0,
                parts='of %d, each in one variant; %d more have a text that is too long' % (len(read) - long, long)),
    ]


if __name__ == '__main__':
    tell(figures(build()))
