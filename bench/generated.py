"""The generated script of a product in many variants, and the same product as files with blocks of `#if`."""
from typing import NamedTuple

OPTIONS, FOLDERS, FILES, LINES = 64, 8, 64, 100
CHOICES = ['-'] + ['o%d=on' % (6 + 7 * number) for number in range(1, 8)]


class Random:
    def __init__(self):
        self.state = 7

    def below(self, bound):
        self.state = (self.state * 6364136223846793005 + 1442695040888963407) % 2**64
        return (self.state >> 33) % bound


class Commit(NamedTuple):
    """Lines put in at the head of a file, each but the first behind one of those before it, and at most one older line deleted."""
    number: int
    choice: str
    ambition: str
    path: str
    anchors: list
    deleted: int  # the line's number in the store, or 0


def path_of(file):
    return '/d%d/f%d' % (file % FOLDERS, file)


def commits(count):
    random, mark, made = Random(), [0] * FILES, []
    for number in range(1, count + 1):
        a, b, form, file = 6 + random.below(58), 6 + random.below(58), random.below(4), random.below(FILES)
        choice, ambition = (('o%d=on' % a, 'true'),
                            ('o%d=on' % a, 'o%d' % a),
                            ('o%d=on' % a, 'o%d | o%d' % (a, b)),
                            ('o%d=on,o%d=off' % (a, b), 'o%d & !o%d' % (a, b)))[1 if a == b and form > 1 else form]
        anchors = [random.below(line) for line in range(1, LINES)]
        made.append(Commit(number, choice, ambition, path_of(file), anchors, mark[file]))
        mark[file] = LINES * (number - 1) + 1 if form == 0 else 0
    return made


def as_lines(commit):
    yield 'open s %s for %s' % (commit.choice, commit.ambition)
    yield 'insert s %s 0 line %d 0' % (commit.path, commit.number)
    for line, anchor in enumerate(commit.anchors, 1):
        yield 'insert s %s +%d line %d %d' % (commit.path, anchor, commit.number, line)
    if commit.deleted:
        yield 'delete s %s %d' % (commit.path, commit.deleted)
    yield 'commit s'


def history(made):
    """The script's lines up to its checkouts."""
    lines = ['option o%d' % option for option in range(OPTIONS)]
    lines += ['constraint !(o0 & o1)', 'constraint !o2 | o3', 'prefer o4 | o5']
    lines += ['default o%d off' % option for option in range(OPTIONS)]
    lines += ['open s - for true'] + ['mkdir s /d%d' % folder for folder in range(FOLDERS)]
    lines += ['mkfile s ' + path_of(file) for file in range(FILES)] + ['commit s']
    return lines + [line for commit in made for line in as_lines(commit)]


def in_c(expression):
    return expression.replace('&', '&&').replace('|', '||')


def conditional(made):
    """The path of each commit's file, and the file's lines after the commit: those that it puts in stand in a block of its
    ambition, and the one that it deletes in a block of the opposite."""
    files = {}
    for commit in made:
        order = [0]
        for line, anchor in enumerate(commit.anchors, 1):
            order.insert(order.index(anchor) + 1, line)
        lines, condition = ['line %d %d' % (commit.number, line) for line in order], in_c(commit.ambition)
        if condition != 'true':
            lines = ['#if ' + condition] + lines + ['#endif']
        lines += files.get(commit.path, [])
        if commit.deleted:
            gone = lines.index('line %d 0' % (commit.deleted // LINES + 1))
            lines[gone:gone + 1] = [] if condition == 'true' else ['#if !(%s)' % condition, lines[gone], '#endif']
        files[commit.path] = lines
        yield commit.path, lines
