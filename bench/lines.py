#!/usr/bin/env python3
"""Times `cat` of `covstore run` over a file of 16,384 lines that 64 commits made and 64 others took a quarter of."""
import random

from timing import build, counted, no_limit, peak_served, served, tell

OPTIONS, COMMITS, LINES, REPETITIONS, ASKED, COUNTED = 20, 64, 16384, 5, 10, 3
ALL_ON = ','.join('o%d=on' % i for i in range(OPTIONS))


def ambition(number, draw):
    """A positive expression over three options, as text and as a function; no two numbers have the same text."""
    apart, b = divmod(number, OPTIONS)
    a, c = (b + apart + 1) % OPTIONS, draw.randrange(OPTIONS)
    text = '(o%d | o%d) & o%d' % (a, b, c) if number % 2 else 'o%d & o%d | o%d' % (a, b, c)
    if number % 2:
        return text, lambda on: (a in on or b in on) and c in on
    return text, lambda on: a in on and b in on or c in on


def history():
    """The script's lines, and the lines of the file in order: number, text, and when it is shown."""
    draw = random.Random(7)
    script = ['option o%d' % i for i in range(OPTIONS)]
    script += ['open start %s for true' % ALL_ON, 'mkfile start /list', 'commit start']
    order, made, shown = [], 0, {}
    for commit in range(COMMITS):
        within, holds = ambition(commit, draw)
        script.append('open s%d %s for %s' % (commit, ALL_ON, within))
        base, own = made, []
        for _ in range(LINES // COMMITS):
            place = draw.randrange(len(order) + 1)
            anchor = order[place - 1] if place else 0
            made += 1
            reference = '+%d' % own.index(anchor) if anchor > base else str(anchor)
            script.append('insert s%d /list %s line %d' % (commit, reference, made))
            own.append(made)
            order.insert(place, made)
            shown[made] = (holds, None)
        script.append('commit s%d' % commit)
    gone = draw.sample(range(1, LINES + 1), LINES // 4)
    for commit in range(COMMITS):
        within, holds = ambition(COMMITS + commit, draw)
        script.append('open t%d %s for %s' % (commit, ALL_ON, within))
        for line in gone[commit::COMMITS]:
            script.append('delete t%d /list %d' % (commit, line))
            shown[line] = (shown[line][0], holds)
        script.append('commit t%d' % commit)
    return script, order, shown


def cats(order, shown):
    """A `cat` on each of four choices, and the replies."""
    draw = random.Random(8)
    sides = [set(range(OPTIONS)), set()] + [{i for i in range(OPTIONS) if draw.random() < 0.5} for _ in range(2)]
    asked, expected = [], b''
    for on in sides:
        asked.append('cat %s /list' % ','.join('o%d=%s' % (i, 'on' if i in on else 'off') for i in range(OPTIONS)))
        lines = [n for n in order if shown[n][0](on) and not (shown[n][1] and shown[n][1](on))]
        expected += b'ok %d\n' % len(lines) + b''.join(b'%d line %d\n' % (n, n) for n in lines)
    return asked, expected


def seconds(program, script, asked, expected):
    """The least seconds of a run with the history, and of each of the lines that are asked."""
    rounds = [(served(script, program), served(script + asked * ASKED, program)) for _ in range(REPETITIONS)]
    assert all(told[1] == made[1] + expected * ASKED for made, told in rounds), 'the lines are those of the list'
    made, told = (min(taken for taken, _ in runs) for runs in zip(*rounds))
    return made, (told - made) / (len(asked) * ASKED)


def instructions(program, script, asked):
    """The instructions of each of the lines that are asked."""
    more, less = (counted(script + lines, program)[0] for lines in (asked * COUNTED, []))
    return (more - less) / (len(asked) * COUNTED)


def figures(program):
    script, order, shown = history()
    asked, expected = cats(order, shown)
    made, each = seconds(program, script, asked, expected)
    return [no_limit('the history', made, 's'),
            no_limit('its peak', peak_served(script, program), 'MB'),
            no_limit('a `cat`', 1000 * each, 'ms'),
            no_limit('a `cat`, by instructions', instructions(program, script, asked), 'instructions')]


if __name__ == '__main__':
    tell(figures(build()))
