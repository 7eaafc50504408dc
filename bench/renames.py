#!/usr/bin/env python3
"""Times `covstore run` over one file that 32 and 64 commits rename, each under an ambition of its own."""

from timing import build, peak_served, ratio, served, tell

OPTIONS, COUNTS, REPETITIONS = 64, (32, 64), 5


def script(renames):
    """The script's lines; the last one shows the file on a choice within the first ambition and the last."""
    lines = ['option o%d' % i for i in range(OPTIONS)] + ['default o%d off' % i for i in range(OPTIONS)]
    lines += ['open start - for true', 'mkfile start /f', 'commit start']
    for i in range(renames):
        lines += ['open s o%d=on for o%d' % (i, i), 'rename s /f n%d' % i, 'commit s']
    return lines + ['cat o0=on,o%d=on /n%d' % (renames - 1, renames - 1)]


def seconds(program, renames):
    runs = [served(script(renames), program) for _ in range(REPETITIONS)]
    assert all(out.endswith(b'\nok 0\n') for _, out in runs), 'the file has its last name'
    return min(taken for taken, _ in runs)


def figures(program):
    few, many = (1000 * seconds(program, renames) for renames in COUNTS)
    less, more = (peak_served(script(renames), program) for renames in COUNTS)
    return [ratio('64 commits to 32', many, few, 'ms', 8), ratio('peak, 64 commits to 32', more, less, 'MB')]


if __name__ == '__main__':
    tell(figures(build()))
