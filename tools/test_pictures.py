#!/usr/bin/env python3
"""Tests tools/pictures.py on a built program, in temporary folders and in headless Chromium.

    tools/test_pictures.py [PROGRAM]

PROGRAM is ./covstore of this checkout if there is none. It ends with 0 exactly if all is as expected:
- the pictures of the examples, made anew, are those in docs/pictures byte for byte; what Graphviz drew only where its version is that which
  the picture names, since another may draw otherwise, and else the text for Graphviz;
- each diagram of a line of the mail reader, walked as it is drawn, leads on each valid choice to what `cat` shows there;
- each page, whose options are switched in the browser to every choice, lights up the lines that `cat` shows, and tells the constraint that
  `cat` refuses a choice by; the same by the address and by the keyboard; and it shows texts of any bytes;
- each dot of a plot stands where its figure and its limit say;
- each text has a contrast of 4.5 to what is behind it, in light and in dark, and pictures, boxes and parts of a page have names;
- what can't be made is told, with status 1, and leaves no store where none was.
Else it tells what isn't so, and ends with 1. It wants Debian's `graphviz` and `chromium`."""
import contextlib
import itertools
import math
import os
import pathlib
import re
import subprocess
import sys
import tempfile
import xml.etree.ElementTree

import browser
import diagram
import pictures
import plot

KEPT = pictures.TOP / 'docs' / 'pictures'
EXAMPLES = pictures.TOP / 'examples'
TOOL = pictures.TOP / 'tools' / 'pictures.py'
LARGEST = 60_000
CONTRAST = 4.5
SVG = '{http://www.w3.org/2000/svg}'

# Each page that is switched through: the inputs of its store, a choice, a path, and the script with the rules.
PAGES = ((pictures.FIX, 'encrypted=on,phone=on', '/send', ()),
         ((('parts.script', 'run'),), 'phone=on,log=on', '/send', ()),
         ((('conditions.script', 'run'),), 'sensor=on,timer=off', '/lamp', (EXAMPLES / 'conditions.script',)),
         ((('brand.script', 'run'),), 'acme=off,phone=off', '/help/send', ()),
         (pictures.READER, 'PHONE=on', '/reader.c', (EXAMPLES / 'reader.script',)))

# Texts that a page could take for something else, and as it shows them. Names of options are those of things that JavaScript has.
SAME = (b'</code></script><script>boxes.length = 0</script>', b'<b title="x">&amp;</b> \'&\'', b'# a', b'#if constructor', b'##', b'',
        b'  two  spaces  ', b'\ta tab', b'$path $$ ${x}', 'ä ∞'.encode())
TEXTS = dict(zip(SAME, SAME)) | {b'ends with a return\r': 'ends with a return␍'.encode(), b'\xff \x00 \x1b': '\ufffd ␀ ␛'.encode()}
NAMES = ('constructor', '__proto__', 'on_', 'toString', 'unused')
RULES = ('true & (!toString|constructor) | false', '!false&!!true', ' ( on_ & !__proto__ | !on_ ) & !( toString & constructor ) ')
CONDITIONS = ('constructor', '!constructor & !toString', '__proto__ | !on_', '!(on_ & (__proto__ | true & false))', 'true')

TABLE = """# One

| Bench | Figure | Now | Limit | Met |
|---|---|---|---|---|
| a | within | 0.5 (1 to 2 s) | at most 1 | yes |
| a | `beyond` | 1,500 ms | at most 1000 | no |
| a | rounded | 2 (200.4 to 100 s) | at most 2 | no |
| b | as before | 7 | no more | yes |
| b | no limit | 7 |  |  |
| b | enough | 45.3 MB/s | at least 30 | yes |
| b | too few | 20 MB/s | at least 30 | no |
| c | none | 0 (of 7) | at most 0 | yes |
| c | some | 3 (of 7) | at most 0 | no |
"""
DRAWN = [('within', True, 0.5), ('beyond', False, 1.5), ('rounded', False, 1), ('enough', True, 30 / 45.3), ('too few', False, 1.5),
         ('none', True, 0), ('some', False, math.inf)]

TEXT_OF = 'document.getElementById("%s").textContent'
VISIBLE = '[...document.querySelectorAll("%s")].filter(element => element.checkVisibility()).map(element => element.textContent)'
# The colours of each text that is shown and of what is behind it.
COLOURS = """(() => {
  const style = element => getComputedStyle(element);
  function behind(element) {
    if (!element) return style(document.querySelector('.page')).fill;
    const shape = element.classList.contains('node') && element.querySelector('ellipse, path');
    if (shape) return style(shape).fill;
    const colour = style(element).backgroundColor;
    return colour === 'rgba(0, 0, 0, 0)' ? behind(element.parentElement) : colour;
  }
  const has_text = element => [...element.childNodes].some(node => node.nodeType === 3 && node.data.trim());
  return [...document.querySelectorAll('body *, svg text')].filter(element => has_text(element) && element.checkVisibility())
    .map(element => [element.closest('svg') ? style(element).fill : style(element).color, behind(element), element.textContent]);
})()"""


def expect(is_so, what):
    if not is_so:
        sys.exit('test_pictures.py: ' + what)


def version_of_drawing(picture):
    return re.findall(r'<!-- Graphviz (\S+) -->', picture)


def test_kept(program):
    """The pictures that are kept are those that are made."""
    names, others = {'README.md'}, set()
    for name, made in pictures.example_pictures(program):
        names.add(name)
        kept = (KEPT / name).read_text(encoding='utf-8')
        expect(len(kept.encode()) < LARGEST, '%s has %d bytes' % (name, len(kept.encode())))
        if version_of_drawing(kept) == version_of_drawing(made):
            expect(kept == made, 'docs/pictures/%s isn\'t what is made now: tools/pictures.py examples' % name)
        else:
            others.add(name)
    expect(names == set(os.listdir(KEPT)), 'docs/pictures has other files')
    return '%d pictures are as kept' % (len(names) - 1 - len(others)) + (
        ', and %d are by another version of Graphviz' % len(others) if others else '')


def all_choices(names):
    """Each choice of these options; from one to the next a single option is switched."""
    for number in range(2 ** len(names)):
        yield {name: bool((number ^ number >> 1) >> place & 1) for place, name in enumerate(names)}


def spelt(choice):
    return ','.join('%s=%s' % (name, 'on' if is_on else 'off') for name, is_on in choice.items())


def cats(program, choices, path):
    """What `cat` says of a file on each choice: the numbers and texts of lines, or the refusal."""
    script = ''.join('cat %s %s\n' % (spelt(choice), path) for choice in choices)
    told = iter(subprocess.run([program, 'run'], input=script.encode(), stdout=subprocess.PIPE).stdout.split(b'\n'))
    for _ in choices:
        first = next(told)
        if first.startswith(b'refused '):
            yield first.decode()
        else:
            yield [next(told).partition(b' ')[::2] for _ in range(int(first.split()[1]))]


def titled(group):
    return group.find(SVG + 'title').text


def groups(picture, kind):
    """The groups of a picture that have a kind, each with its further classes."""
    for group in xml.etree.ElementTree.fromstring(picture).iter(SVG + 'g'):
        kinds = group.get('class', '').split()
        if kinds[:1] == [kind]:
            yield group, kinds[1:]


def ways(picture):
    """What a diagram says as it is drawn: where it begins, the label of each node, and where each node leads, solid and dashed."""
    labels = {titled(group): group.find(SVG + 'text').text for group, _ in groups(picture, 'node')}
    edges = {}
    for group, [kind] in groups(picture, 'edge'):
        dashes = group.find(SVG + 'path').get('stroke-dasharray')
        expect((kind == 'off') == (dashes is not None), 'a line is dashed that isn\'t for off, or the other way about')
        start, _, end = titled(group).partition('->')
        edges.setdefault(start, {})[kind] = end
    [root] = labels.keys() - {end for ends in edges.values() for end in ends.values()}
    return root, labels, edges


def walked(place, labels, edges, choice):
    """The label of the end to which a diagram leads on a choice."""
    while place in edges:
        place = edges[place]['on' if choice[labels[place]] else 'off']
    return labels[place]


def test_diagrams(program):
    """Diagrams lead to what is shown."""
    with pictures.store_of(program, pictures.READER):
        names = 'ENCRYPTED PHONE THREADS SEARCH SPAM LOG'.split()
        told = [(choice, {number for number, _ in shown}) for choice, shown in
                zip(all_choices(names), cats(program, list(all_choices(names)), '/reader.c')) if not isinstance(shown, str)]
        numbers = sorted(set.union(*(shown for _, shown in told)))
        listings = [diagram.listing_of(*reply) for reply in pictures.replies(program, *(b'where ' + number for number in numbers))]
        drawings = {str(listing): ways(diagram.picture_of(listing, 'A line', '')) for listing in listings}
    for number, listing in zip(numbers, listings):
        for choice, shown in told:
            expect(walked(*drawings[str(listing)], choice) == ('there' if number in shown else 'not there'),
                   'the diagram of line %s says something else on %s' % (number.decode(), spelt(choice)))
    expect(walked(*ways(diagram.picture_of(diagram.Listing('F', {}), 'A line', '')), {}) == 'not there', 'a line that is nowhere')
    return '%d diagrams of %d lines on %d choices' % (len(drawings), len(numbers), len(told))


def lit(shown):
    return shown.value(VISIBLE % '.lit code')


def switch(shown, name):
    shown.value('document.querySelector(\'[name="option"][value="%s"]\').click()' % name)


def state(shown):
    """What a page shows of its choice."""
    return lit(shown), shown.value(TEXT_OF % 'told'), shown.value(TEXT_OF % 'choice')


def expect_choice(shown, choice, told, what):
    """The page shows of a choice what the program tells of it."""
    lines, status, named = state(shown)
    expect(named == spelt(choice), '%s: the choice is %s' % (what, named))
    if isinstance(told, str):
        number = re.fullmatch(r'refused invalid (\d+)', told)[1]
        expect(status == 'No variant: rule %s is broken' % number and not lines, '%s: %s, and not %s' % (what, status, told))
    else:
        expect(lines == [text.decode() for _, text in told], '%s: other lines are lit' % what)
        expect(status == '%d line%s in the variant' % (len(lines), 's' * (len(lines) != 1)), '%s: %s' % (what, status))


def switched_through(shown, program, made, choice, path):
    """Switches a page to each choice, from the last on, with which no page begins; how many there are."""
    file = pathlib.Path('page.html')
    file.write_bytes(made.encode())
    completed = next(pictures.replies(program, pictures.asked('complete', choice)))[0].decode().removeprefix('ok ')
    shown.go(file.absolute().as_uri())
    expect(shown.value(TEXT_OF % 'choice') == completed, '%s begins with another choice' % path)
    choices = list(all_choices([binding.partition('=')[0] for binding in completed.split(',')]))
    before = {name: '%s=on' % name in completed.split(',') for name in choices[0]}
    for chosen, told in reversed(list(zip(choices, cats(program, choices, path)))):
        for name in chosen:
            if chosen[name] != before[name]:
                switch(shown, name)
        before = chosen
        expect(shown.value('location.hash') == '#' + spelt(chosen), 'the address doesn\'t keep %s' % spelt(chosen))
        if told != 'refused no-such-path':
            expect_choice(shown, chosen, told, '%s on %s' % (path, spelt(chosen)))
    return len(choices)


def test_pages(program):
    """Pages light up what is shown."""
    count = 0
    with browser.opened() as shown:
        for runs, choice, path, rules in PAGES:
            with pictures.store_of(program, runs):
                count += switched_through(shown, program, pictures.page_of_file(program, choice, path, rules), choice, path)
    return '%d pages on %d choices' % (len(PAGES), count)


def test_address_and_keys(program):
    """A choice in the address is taken, and keys alone switch options and hide the other lines."""
    with browser.opened() as shown, pictures.store_of(program, pictures.READER):
        address = (KEPT / 'reader-page.html').as_uri()
        choice = {'ENCRYPTED': False, 'PHONE': False, 'THREADS': True, 'SEARCH': True, 'SPAM': False, 'LOG': True}
        shown.go(address + '#LOG=on,PHONE=off,THREADS=on,unknown=on,ENCRYPTED=off')
        expect_choice(shown, choice, *cats(program, [choice], '/reader.c'), 'a choice in the address')
        shown.value('location.hash = "#THREADS=off"')
        choice['THREADS'] = False
        shown.until('!document.getElementsByName("option")[2].checked')
        expect_choice(shown, choice, *cats(program, [choice], '/reader.c'), 'another choice in the address')
        for name in choice:
            shown.press('Tab')
            expect(shown.value('document.activeElement.value') == name, 'the key Tab doesn\'t lead to %s' % name)
        shown.press(' ')
        choice['LOG'] = False
        expect_choice(shown, choice, *cats(program, [choice], '/reader.c'), 'a choice by the keyboard')
        shown.press('Tab')
        shown.press(' ')
        expect(lit(shown) == shown.value(VISIBLE % '.block code'), 'other lines than those of the variant are left')
        expect(shown.named('region')[0] == 'The choice' and shown.named('main') == ['The lines'], 'the parts of a page have no names')
        expect(set(shown.named('checkbox')) == {*choice, 'only the lines of the variant'}, 'the boxes of a page have other names')
    return 'address and keys'


def test_texts(program):
    """A page shows texts of any bytes, and expressions over any names."""
    off = spelt(dict.fromkeys(NAMES, False))
    lines = ['option ' + name for name in NAMES] + ['constraint ' + rule for rule in RULES]
    conditional = b''.join(b'#if %s\n%s%s\n#endif\n' % (condition.encode(), b'#' * text.startswith(b'#'), text)
                           for text, condition in zip(TEXTS, itertools.cycle(CONDITIONS)))
    with browser.opened() as shown, pictures.store_of(program, ()):
        pathlib.Path('script').write_text('\n'.join(lines))
        told = pictures.served(program, ['run'], '\n'.join(lines).encode()) + pictures.served(program, ['import', '/texts'], conditional)
        expect(not any(line.startswith(b'refused') for line in told), 'the texts aren\'t taken in')
        page = pathlib.Path('page.html')
        page.write_bytes(pictures.page_of_file(program, off, '/texts', ['script']).encode())
        shown.go(page.absolute().as_uri())
        choices = list(all_choices(NAMES))
        for choice, told in zip(choices, cats(program, choices, '/texts')):
            told = told if isinstance(told, str) else [(number, TEXTS[text]) for number, text in told]
            shown.value('location.hash = "#%s"' % spelt(choice))
            shown.until('%s === "%s"' % (TEXT_OF % 'choice', spelt(choice)))
            expect_choice(shown, choice, told, 'texts on %s' % spelt(choice))
        hidden = shown.value(VISIBLE % '.idle')
        shown.value('document.getElementById("more").click()')
        expect(not hidden and shown.value(VISIBLE % '.idle') == [' unused'], 'options without effect are shown')
        expect(shown.value('performance.getEntriesByType("resource").length') == 0, 'a page asks for another file')
    return '%d texts of any bytes' % len(TEXTS)


def brightness(colour):
    parts = [int(part) / 255 for part in re.findall(r'\d+', colour)[:3]]
    return sum(weight * (part / 12.92 if part <= 0.04045 else ((part + 0.055) / 1.055) ** 2.4)
               for weight, part in zip((0.2126, 0.7152, 0.0722), parts))


def contrast(*colours):
    dark, light = sorted(map(brightness, colours))
    return (light + 0.05) / (dark + 0.05)


def test_looks(program):
    """Texts can be read in light and in dark, and a picture has a name."""
    del program
    count = 0
    with browser.opened() as shown:
        for picture in sorted(path for path in KEPT.iterdir() if path.suffix in ('.svg', '.html')):
            for scheme in ('light', 'dark'):
                shown.prefer(scheme)
                shown.go(picture.as_uri() + '#PHONE=on,THREADS=off')
                texts = shown.value(COLOURS)
                expect(texts, '%s shows no text' % picture.name)
                for colour, behind, text in texts:
                    expect(contrast(colour, behind) >= CONTRAST, '%s, %s: %s on %s: %s' % (picture.name, scheme, colour, behind, text))
                    count += 1
            if picture.suffix == '.svg':
                title = xml.etree.ElementTree.parse(picture).find(SVG + 'title').text
                expect(shown.named('image') == [title], '%s has no name' % picture.name)
    return '%d texts can be read' % count


def scale_of(picture):
    """What tells the share of the limit that a place in a plot stands for, by the labels of the limit and of another tick."""
    texts = xml.etree.ElementTree.fromstring(picture).findall(SVG + 'text')
    labels = {float(text.get('x')): text.text for text in texts if 'middle' in text.get('class')}
    limit = next(place for place, label in labels.items() if label == 'limit')
    other, tick = next((place, float(label)) for place, label in labels.items() if label not in ('limit', '0', 'not 0'))
    aside = {place: {'0': 0, 'not 0': math.inf}[label] for place, label in labels.items() if label in ('0', 'not 0')}
    return lambda place: aside[place] if place in aside else tick ** ((place - limit) / (other - limit))


def drawn_figures(picture):
    """Each figure of a plot: its name, whether it has a dot and not a diamond, and the share of its limit at which that stands."""
    share_at = scale_of(picture)
    for group, _ in itertools.chain(groups(picture, 'met'), groups(picture, 'unmet')):
        circle = group.find(SVG + 'circle')
        place = circle.get('cx') if circle is not None else re.match(r'M([\d.]+)', group.findall(SVG + 'path')[-1].get('d'))[1]
        yield group.find(SVG + 'text').text, circle is not None, share_at(float(place))


def test_plots(program):
    """Dots stand where figures and limits say."""
    del program
    made = sorted(drawn_figures(plot.plot_of('One', list(plot.rows_of(TABLE, 'One')))))
    expect([figure[:2] for figure in made] == [figure[:2] for figure in sorted(DRAWN)], 'a plot has other figures: %s' % made)
    for (name, _, share), (_, _, expected) in zip(made, sorted(DRAWN)):
        expect(share == expected or math.isclose(share, expected, rel_tol=0.01), '%s stands at %g of its limit' % (name, share))
    count, tables = 0, (pictures.TOP / 'bench' / 'README.md').read_text(encoding='utf-8')
    for name, heading in pictures.TABLES:
        table = tables.partition('\n## %s\n' % heading)[2].partition('\n## ')[0]
        met = re.findall(r'\| at (?:most|least) [\d.]+ \| (yes|no) \|$', table, re.M)
        drawn = ['yes' if is_met else 'no' for _, is_met, _ in drawn_figures((KEPT / (name + '.svg')).read_text(encoding='utf-8'))]
        expect(sorted(drawn) == sorted(met), '%s has other figures' % name)
        count += len(drawn)
    return '%d figures beside their limits' % count


def test_faults(program):
    """What can't be made is told."""
    bare = [sys.executable, TOOL, '--program', program]
    phone = 'encrypted=on,phone=on'
    cases = ((('where', '4', phone, '/send'), 'no-such-line'), (('where', '3', 'encrypted=off,phone=on', '/send'), 'no line 3'),
             (('where', '3', '-', '/send'), 'incomplete encrypted'), (('page', phone, '/'), 'not-file'),
             (('page', phone, '/send', '--rules', EXAMPLES / 'rules.script'), '0 constraints'),
             (('plot', EXAMPLES / 'reader.c'), 'no such table'), (('plot', 'nothing'), 'nothing'))
    with pictures.store_of(program, pictures.FIX):
        for words, told in cases:
            done = subprocess.run(bare + list(words), capture_output=True, text=True)
            expect(done.returncode == 1 and told in done.stderr and not done.stdout, '%s: %d %s' % (words, done.returncode, done.stderr))
    with tempfile.TemporaryDirectory() as folder, contextlib.chdir(folder):
        done = subprocess.run(bare + ['page', '-', '/x'], capture_output=True, text=True)
        expect(done.returncode == 1 and 'no store.cov' in done.stderr and not os.listdir(), 'a folder without a store: %s' % done.stderr)
    return '%d faults are told' % (len(cases) + 1)


def main():
    program = os.path.abspath(sys.argv[1] if len(sys.argv) > 1 else pictures.TOP / 'covstore')
    for test in (test_kept, test_diagrams, test_pages, test_address_and_keys, test_texts, test_looks, test_plots, test_faults):
        print(test(program), flush=True)


if __name__ == '__main__':
    main()
