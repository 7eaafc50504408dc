"""Draws where a line is: the reduced decision diagram that the reply of `where` tells, by Graphviz."""
import re
import subprocess
from typing import NamedTuple

import svg

ENDS = {'T': 'there', 'F': 'not there'}
# The sizes of nodes are told to Graphviz, so that no font of the machine changes where they stand. Inches, as Graphviz has them.
HEIGHT = 0.4
NARROWEST = 0.9
INCH = 72

STYLE = ('.node ellipse, .node path { stroke: %(faint)s; stroke-width: 1.4; fill: %(page)s } '
         '.edge path, .key { stroke: %(faint)s; stroke-width: 1.4 } .edge polygon { stroke: %(faint)s; fill: %(faint)s } '
         '.there path { stroke: %(good)s; fill: %(tint)s } .there text { fill: %(good)s } .caption { font-size: 15px; font-weight: 600 } '
         '.line { font: 12px ui-monospace, Menlo, Consolas, monospace; white-space: pre }')
MARGIN = 16
HEAD = 60
FOOT = 40
LONGEST = 90


class Entry(NamedTuple):
    """An option, and where to go on with it off and on: to the entry of that number, or to an end."""
    option: str
    off: str
    on: str


class Listing(NamedTuple):
    """Where to begin, and the entries by their numbers."""
    root: str
    entries: dict


def listing_of(first, rows):
    """The listing that a reply of `where` has, of its first line and those that follow."""
    entries = {number: Entry(*entry) for number, *entry in (row.decode().split(' ') for row in rows)}
    return Listing(first.decode().split(' ')[2], entries)


def places(listing):
    """The entries and ends that the diagram has, each with its label."""
    targets = {listing.root} | {target for entry in listing.entries.values() for target in (entry.off, entry.on)}
    yield from ((number, entry.option) for number, entry in listing.entries.items())
    yield from ((end, label) for end, label in ENDS.items() if end in targets)


def names(listing):
    """The name of each entry or end in the text for Graphviz."""
    return {place: '"%s"' % (label if place in ENDS else '%s %s' % (place, label)) for place, label in places(listing)}


def node(name, place, label):
    """An entry or an end in the text for Graphviz."""
    width = max(NARROWEST, svg.width_of(label) * 1.2 / INCH + 0.4)
    shape = 'shape=box style=rounded class="%s"' % ENDS[place].replace(' ', '-') if place in ENDS else 'shape=ellipse class="option"'
    return '    %s [label="%s" width=%.2f %s]' % (name, label, width, shape)


def dot_of(listing):
    """The diagram as a text for Graphviz: entries with one option stand at one height, and the ends below all."""
    named, levels = names(listing), {}
    for place, label in places(listing):
        levels.setdefault('' if place in ENDS else label, []).append(named[place])
    lines = ['digraph where {', '    bgcolor=transparent nodesep=0.4 ranksep=0.5',
             '    node [fixedsize=true height=%g fontname="sans-serif" fontsize=%d]' % (HEIGHT, svg.FONT_SIZE)]
    lines += [node(named[place], place, label) for place, label in places(listing)]
    lines += ['    { rank=%s %s }' % ('same' if option else 'sink', ' '.join(level)) for option, level in levels.items()]
    for number, entry in listing.entries.items():
        lines.append('    %s -> %s [class="off" style=dashed]' % (named[number], named[entry.off]))
        lines.append('    %s -> %s [class="on"]' % (named[number], named[entry.on]))
    return '\n'.join([*lines, '}', ''])


def way(target):
    return 'it is ' + ENDS[target] if target in ENDS else 'go on at entry ' + target


def in_words(listing):
    """The listing as a text for those who don't see the diagram."""
    if listing.root in ENDS:
        return 'In each choice the line is %s.' % ENDS[listing.root]
    return 'Begin at entry %s. ' % listing.root + ' '.join(
        'Entry %s: with %s off %s, with it on %s.' % (number, entry.option, way(entry.off), way(entry.on))
        for number, entry in listing.entries.items())


def drawn(dot):
    """What Graphviz draws: the width and the height in pixels, and the parts, the first of which tells its version."""
    made = subprocess.run(['dot', '-Tsvg'], input=dot.encode(), stdout=subprocess.PIPE, check=True).stdout.decode()
    width, height = re.search(r'viewBox="0\.00 0\.00 (\S+) (\S+)"', made).groups()
    version = re.search(r'graphviz version (\S+)', made)[1]
    group = re.search(r'<g id="graph0".*</g>', made, re.S)[0]
    return float(width), float(height), ['<!-- Graphviz %s -->' % version, group]


def keys(top):
    """What the two kinds of line mean, below the diagram."""
    yield '<path class="key" d="M%d,%dh32"/><text x="%d" y="%d">on</text>' % (MARGIN, top - 4, MARGIN + 40, top)
    yield '<path class="key" d="M%d,%dh32" stroke-dasharray="5,2"/><text x="%d" y="%d">off</text>' % (
        MARGIN + 80, top - 4, MARGIN + 120, top)


def picture_of(listing, title, text):
    """The diagram of a line with this text as a picture with a title."""
    width, height, (version, group) = drawn(dot_of(listing))
    text = svg.shortened(text.strip(), LONGEST)
    whole = 2 * MARGIN + max(width, svg.width_of(title) * 1.45, svg.width_of(text) * 1.1, 160)
    parts = [version, '<text class="caption" x="%d" y="27">%s</text>' % (MARGIN, svg.escaped(title)),
             '<text class="line" x="%d" y="47">%s</text>' % (MARGIN, svg.escaped(text)),
             '<g transform="translate(%.0f %d)">' % ((whole - width) / 2, HEAD), group, '</g>', *keys(HEAD + height + FOOT - 14)]
    return svg.framed(round(whole), round(HEAD + height + FOOT), title, in_words(listing), STYLE, parts)
