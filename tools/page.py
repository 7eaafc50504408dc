"""Makes a page of a file with all its variants, of the reply of `cond`: options are switched there, and the variant's lines light up."""
import itertools
import pathlib
import re
import string

from svg import escaped, readable

TEMPLATE = pathlib.Path(__file__).with_name('page.html')


def conditions_and_texts(rows):
    """Each text of the rows that `cond` tells with its condition, which is empty where each choice has it."""
    condition = ''
    for row in rows:
        if row.startswith(b'##') or not row.startswith(b'#'):
            yield condition, readable(row[1:] if row.startswith(b'#') else row)
        else:
            condition = row.decode().removeprefix('#if ') if row.startswith(b'#if ') else ''


def block(condition, texts):
    """Lines one after another that have one condition."""
    shown = ''.join('<code>%s</code>\n' % escaped(text) for text in texts)
    if not condition:
        return '<div class="block">\n%s</div>' % shown
    return '<div class="block" data-if="{0}"><p><b>{0}</b> <span class="state"></span></p>\n{1}</div>'.format(escaped(condition), shown)


def boxes(choice, named):
    """The box of each option, which the page begins with on or off; those that aren't named are hidden until one more box shows them."""
    bindings = [binding.split('=') for binding in choice.split(',')] if choice != '-' else []
    for name, value in bindings:
        yield '<label%s><input type="checkbox" name="option" value="%s"%s> %s</label>' % (
            '' if name in named else ' class="idle"', name, ' checked' if value == 'on' else '', name)
    idle = sum(name not in named for name, _ in bindings)
    if idle:
        yield '<label class="more"><input type="checkbox" id="more"> also %d without effect</label>' % idle


def listed(rules):
    """The rules in order, if there are any."""
    if not rules:
        return ''
    rows = ''.join('<li data-if="{0}"><code>{0}</code> <span class="state"></span></li>\n'.format(escaped(rule)) for rule in rules)
    return '<section aria-labelledby="rules"><h2 id="rules">Rules</h2>\n<ol class="rules">\n%s</ol></section>' % rows


def page_of(path, choice, rows, rules):
    """The page of a file, of the rows that `cond` tells. It begins with a choice of all options. There may be no rules."""
    groups = itertools.groupby(conditions_and_texts(rows), lambda pair: pair[0])
    blocks = [(condition, [text for _, text in pairs]) for condition, pairs in groups]
    named = set(re.findall(r'\w+', ' '.join([*rules, *(condition for condition, _ in blocks)])))
    return string.Template(TEMPLATE.read_text(encoding='utf-8')).substitute(
        path=escaped(path), boxes='\n'.join(boxes(choice, named)),
        rules=listed(rules), blocks='\n'.join(block(*pair) for pair in blocks))
