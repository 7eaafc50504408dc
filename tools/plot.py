"""Draws a table of figures with limits, as bench/all.py prints them and bench/README.md keeps them: a dot for each figure, relative to its
limit, which is a line."""
import itertools
import math
import re
from typing import NamedTuple

import svg

STYLE = ('.grid, .between { stroke: %(rule)s } .between { stroke-dasharray: 1,3 } .limit { stroke: %(ink)s; stroke-width: 2 } '
         '.beyond { fill: %(blot)s } .way { stroke-width: 2 } .met .way { stroke: %(good)s } .unmet .way { stroke: %(bad)s } '
         '.met circle { fill: %(good)s } .unmet path { fill: %(bad)s } .unmet text { fill: %(bad)s; font-weight: 600 } '
         '.left { text-anchor: end } .middle { text-anchor: middle } .faint { fill: %(faint)s } .bench { font-weight: 600 } '
         '.caption { font-size: 15px; font-weight: 600 }')
MARGIN = 16
HEAD = 78
ROW = 18
PLOT = 340
# The column of figures that are 0, before the scale, and that of figures which should be 0 and aren't, behind it.
ASIDE = 44
STEPS = (1, 2, 5)
# Where there are more ticks, powers of ten alone have room for their labels.
LABELLED = 9


class Row(NamedTuple):
    """A figure as it is told, with its limit, the share of the limit that it takes, and whether the table says that it is met."""
    bench: str
    figure: str
    told: str
    share: float
    is_met: bool


def cells(line):
    return [cell.strip() for cell in line.strip().strip('|').split('|')]


def tables(text):
    """Each table of a text in Markdown, with the heading above it: the cells of its rows by the names of its columns."""
    heading, names, found = '', [], []
    for line in text.split('\n'):
        if line.startswith('#'):
            heading = line.lstrip('#').strip()
        if not line.startswith('|'):
            names = []
        elif not names:
            names = cells(line)
            found.append((heading, []))
        elif not line.startswith('|---'):
            found[-1][1].append(dict(zip(names, cells(line))))
    return found


def number(text):
    return float(re.match(r'[\d.,]+', text)[0].replace(',', ''))


def share_of(value, kind, limit):
    """How much of its limit a figure takes: more than 1 where it doesn't keep to it."""
    part, whole = (value, limit) if kind == 'most' else (limit, value)
    if part == 0:
        return 0
    return part / whole if whole else math.inf


def rows_of(text, heading):
    """The figures whose limits are numbers in the table below a heading, or below any where that is empty."""
    found = next((rows for above, rows in tables(text) if rows and 'Limit' in rows[0] and heading in ('', above)), [])
    for row in found:
        limit = re.fullmatch(r'at (most|least) ([\d.]+)', row['Limit'])
        if limit:
            told = row['Now'].partition(' (')[0]
            share = share_of(number(told), limit[1], float(limit[2]))
            yield Row(row['Bench'], row['Figure'].replace('`', ''), '%s, %s' % (told, row['Limit']), share, row['Met'] == 'yes')


def ticks(shares):
    """Shares of the limit from below the least to above the greatest, of which the limit is one and no end."""
    least, most = min(shares, default=1), max(shares, default=1)
    marks = [step * 10 ** power for power in range(-9, 10) for step in STEPS]
    first = max(place for place, mark in enumerate(marks) if mark < min(least, 0.9))
    last = min(place for place, mark in enumerate(marks) if mark > max(most, 1.1))
    return marks[first:last + 1]


class Scale:
    """Where shares of a limit stand from left to right."""

    def __init__(self, left, shares):
        finite = [share for share in shares if 0 < share < math.inf]
        self.ticks = ticks(finite)
        self.has_none, self.has_infinite = 0 in shares, math.inf in shares
        self.begin = left
        self.left = left + ASIDE * self.has_none
        self.right = self.left + PLOT
        self.end = self.right + ASIDE * self.has_infinite

    def place(self, share):
        if share in (0, math.inf):
            return self.left - ASIDE / 2 if share == 0 else self.right + ASIDE / 2
        low, high = (math.log(self.ticks[end]) for end in (0, -1))
        return self.left + (math.log(share) - low) / (high - low) * PLOT


def labelled(tick, count):
    """The label of one of so many ticks, which may be none."""
    if tick == 1:
        return 'limit'
    return '%g' % tick if count <= LABELLED or math.log10(tick).is_integer() else ''


def grid(scale, bottom):
    """What stands behind the figures: the part beyond the limit, and a line for each tick."""
    yield '<rect class="beyond" x="%.1f" y="%d" width="%.1f" height="%d"/>' % (
        scale.place(1), HEAD, scale.end - scale.place(1), bottom - HEAD)
    marks = [(tick, labelled(tick, len(scale.ticks))) for tick in scale.ticks]
    marks += [(0, '0')] * scale.has_none + [(math.inf, 'not 0')] * scale.has_infinite
    for share, label in marks:
        place = scale.place(share)
        yield '<path class="%s" d="M%.1f,%dV%d"/>' % ('limit' if share == 1 else 'grid', place, HEAD, bottom)
        if label:
            yield '<text class="middle%s" x="%.1f" y="%d">%s</text>' % ('' if share == 1 else ' faint', place, HEAD - 8, label)


def mark(row, place, height):
    """The dot of a figure: a diamond where the limit isn't met."""
    if row.is_met:
        return '<circle cx="%.1f" cy="%d" r="4.5"/>' % (place, height)
    return '<path d="M%.1f,%dl6,6l-6,6l-6,-6z"/>' % (place, height - 6)


def begun(bench, scale, height):
    """The name of a bench, with a line above its first figure."""
    yield '<path class="between" d="M%d,%dH%.1f"/>' % (MARGIN, height - ROW // 2, scale.end)
    yield '<text class="bench" x="%d" y="%d">%s</text>' % (MARGIN, height + 4, svg.escaped(bench or '–'))


def drawn(row, scale, height):
    """The row of a figure."""
    place = scale.place(row.share)
    yield '<g class="%s">' % ('met' if row.is_met else 'unmet')
    yield '<text class="left" x="%.1f" y="%d">%s</text>' % (scale.begin - 8, height + 4, svg.escaped(row.figure))
    if 0 < row.share < math.inf:
        yield '<path class="way" d="M%.1f,%dH%.1f"/>' % (scale.place(1), height, place)
    yield mark(row, place, height)
    told = row.told if row.is_met else row.told + ': not met'
    yield '<text x="%.1f" y="%d">%s</text></g>' % (scale.end + 10, height + 4, svg.escaped(told))


def counted(rows):
    return '%d of %d limits are met.' % (sum(row.is_met for row in rows), len(rows))


def in_words(rows):
    """What the picture says, for those who don't see it."""
    return counted(rows) + ''.join(' Not met: %s, %s: %s.' % (row.bench, row.figure, row.told) for row in rows if not row.is_met)


def widest(texts):
    return max((svg.width_of(text) for text in texts), default=0)


def plot_of(heading, rows):
    """The picture of a table's figures below its heading."""
    left = 2 * MARGIN + widest(row.bench for row in rows) + widest(row.figure for row in rows)
    scale = Scale(left, [row.share for row in rows])
    bottom = HEAD + ROW * len(rows) + 6
    parts = ['<text class="caption" x="%d" y="27">%s</text>' % (MARGIN, svg.escaped(heading)),
             '<text class="faint" x="%d" y="47">Each figure as a share of its limit. %s</text>' % (MARGIN, counted(rows)),
             *grid(scale, bottom)]
    height = HEAD + ROW // 2 + 3
    for bench, figures in itertools.groupby(rows, lambda row: row.bench):
        parts += begun(bench, scale, height)
        for row in figures:
            parts += drawn(row, scale, height)
            height += ROW
    width = scale.end + 10 + widest(row.told + ': not met' * (not row.is_met) for row in rows) + MARGIN
    return svg.framed(round(width), bottom + MARGIN, heading, in_words(rows), STYLE, parts)
