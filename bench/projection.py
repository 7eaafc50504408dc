#!/usr/bin/env python3
"""Times `cat` of `covstore run` over a file of 100,000 lines beside Debian's unifdef on the same lines in blocks of `#if`."""
import itertools
import re
import statistics

from generated import Random, in_c
from timing import as_script, ask, build, clocked, elsewhere, no_limit, ratio, started, tell, told

OPTIONS, LINES, BLOCKS, DEEPEST, SESSION, ASKED = 20, 100000, 500, 3, 16000, 10
ON = ['o%d' % option for option in range(0, OPTIONS, 2)]


def directives(random, left):
    """The directives of a file with so many blocks, each with the conditions under which what follows is shown."""
    blocks = []
    while left or blocks:
        if blocks and (not left or len(blocks) == DEEPEST or random.below(2)):
            condition, has_else = blocks.pop()
            directive = '#endif'
            if not has_else and not random.below(4):
                directive = '#else'
                blocks.append(('!(%s)' % condition, True))
        else:
            a, b, left = random.below(OPTIONS), random.below(OPTIONS), left - 1
            forms = ('o%d' % a, '!o%d' % a, 'o%d & o%d' % (a, b), 'o%d | !o%d' % (a, b), '!(o%d & o%d)' % (a, b))
            blocks.append((forms[random.below(len(forms))], False))
            directive = '#if ' + blocks[-1][0]
        yield directive, [condition for condition, _ in blocks]


def parts(lines=LINES, blocks=BLOCKS):
    """The file in parts: a directive, none for the first part; the conditions; and the lines. About half of the lines are in no block."""
    random = Random()
    heads = [('', [])] + list(directives(random, blocks))
    sizes = [4 + random.below(8)] + [(1 + random.below(8)) * (1 if conditions else 5) for _, conditions in heads[1:]]
    whole = sum(sizes)
    counts = [lines * size // whole for size in sizes]
    counts[-1] += lines - sum(counts)
    ends = list(itertools.accumulate(counts))
    return [(*head, ['text %d of the file with some words' % line for line in range(first, end)])
            for head, first, end in zip(heads, [0] + ends, ends)]


def conditional(file):
    """The file as conditional text."""
    return [line for directive, _, lines in file for line in ([directive] if directive else []) + lines]


def test_of(expression):
    """An expression as one of Python, to be evaluated over the values of its names."""
    return compile(expression.replace('!', ' not ').replace('&', ' and ').replace('|', ' or ').strip(), '', 'eval')


def choice_within(conditions):
    """Bindings that meet the conditions, or None where nothing does."""
    expression = ' & '.join('(%s)' % condition for condition in conditions)
    test, names = test_of(expression), sorted(set(re.findall('o[0-9]+', expression)))
    for values in itertools.product((False, True), repeat=len(names)):
        if eval(test, dict(zip(names, values))):
            return as_choice(dict(zip(names, values)))
    return None


def as_choice(values):
    return ','.join('%s=%s' % (name, 'on' if is_on else 'off') for name, is_on in values.items())


def session(choice, ambition, anchor, lines):
    places = [str(anchor)] + ['+%d' % line for line in range(len(lines) - 1)]
    inserts = ['insert s /file %s %s' % pair for pair in zip(places, lines)]
    return ['open s %s for %s' % (choice, ambition)] + inserts + ['commit s']


def history(file):
    """The lines in no block come first, in sessions of SESSION lines, and then those of each part in a block, the last part first."""
    names = ['o%d' % option for option in range(OPTIONS)]
    lines = ['option ' + name for name in names] + ['default %s off' % name for name in names]
    lines += ['open s - for true', 'mkfile s /file', 'commit s']
    everywhere, within = [], []
    for _, conditions, texts in file:
        if conditions and texts:
            within.append((conditions, len(everywhere), texts))
        elif not conditions:
            everywhere += texts
    for first in range(0, len(everywhere), SESSION):
        lines += session('-', 'true', first, everywhere[first:first + SESSION])
    for conditions, anchor, texts in reversed(within):
        choice = choice_within(conditions)
        if choice:
            lines += session(choice, ' & '.join('(%s)' % condition for condition in conditions), anchor, texts)
    return lines


def asked(program, lines, cat):
    """The processor seconds of each of the `cat`s that come after a first one in a run."""
    with started(program) as child:
        for line in lines + [cat]:
            ask(child, line)
        return [ask(child, cat) for _ in range(ASKED)]


def by_unifdef(file, names):
    """The median of the processor seconds that unifdef takes for the file, and the lines that it leaves."""
    with elsewhere():
        with open('file.c', 'wb') as source:
            as_script([in_c(line) if line.startswith('#') else line for line in conditional(file)], source)
        defined = ['-D%s=%d' % (name, name in ON) for name in names]
        runs = [told('unifdef', '-t', '-x2', *defined, 'file.c') for _ in range(ASKED)]
    return statistics.median(clock.processor for clock, _ in runs), runs[-1][1].splitlines()


def figures(program):
    file = parts()
    lines = history(file)
    names = ['o%d' % option for option in range(OPTIONS)]
    cat = 'cat %s /file' % as_choice({name: name in ON for name in names})
    other, expected = by_unifdef(file, names)
    with elsewhere():
        once, replies = clocked(lines + [cat], program)
    reply = replies.splitlines()[-len(expected) - 1:]
    assert reply[0] == b'ok %d' % len(expected), 'as many lines are shown'
    assert [line.partition(b' ')[2] for line in reply[1:]] == expected, 'the same lines are shown'
    each = statistics.median(asked(program, lines, cat))
    return [no_limit('a run with one `cat`', once.processor, 's'),
            ratio('each further one to unifdef', 1000 * each, 1000 * other, 'ms', 0.4)]


if __name__ == '__main__':
    tell(figures(build()))
