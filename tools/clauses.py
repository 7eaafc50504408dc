#!/usr/bin/env python3
"""Looks up each contract and definition that documents cite in the sources of the crates, names each one that isn't there, by document and line,
and ends with 1 then, else with 0.

    tools/clauses.py
    tools/clauses.py docs/PROVED.md

Without words it reads README.md, docs/PROVED.md and docs/MODEL.md. A citation is a name in code marks, with what it has in brackets behind it:

    `cov_serve::run` [`front`, `whole`]        a function with the clauses `ensures front` and `ensures whole` (or `requires`)
    `cov_store::Store::open` [`stands`]        a method of a type or a trait; a type has the clauses of the traits that it implements, too
    `cov_lines::forms_are_answered`            a function with an `ensures` that has no name, as that of a law
    `cov_codes::Stop` [`from_gives`]           a type or a trait with a `ghost from_gives` in its `trait` or an `impl`
    `cov_edit/specs/Replay.antt` [`replay`]    a file of definitions, with a public one

In a table whose first column is headed `Crate`, a name without a crate is one of the row's, and the last cell has citations alone, with `;` between
two, or the word `tested`, behind which may stand in parentheses which scripts test it. Elsewhere a name counts as cited where it has its crate or
brackets behind it, and wants its crate.
"""
import pathlib
import re
import sys
from typing import NamedTuple

TOP = pathlib.Path(__file__).resolve().parent.parent
DOCUMENTS = ('README.md', 'docs/PROVED.md', 'docs/MODEL.md')

NAME = r'`(?:cov_\w+(?:::|/))?(?:specs/\w+\.antt|[A-Za-z]\w*(?:::\w+)?)`'
CITED = re.compile(r'(%s)(?:\s+\[(`[\w-]+`(?:,\s+`[\w-]+`)*)\])?' % NAME)
IN_CRATE = re.compile(r'(?:(cov_\w+)(?:::|/))?(.+)')
TESTED = re.compile(r'tested(?: \((`[^`]+`(?:, `[^`]+`)*)\))?')
CODE = re.compile(r'`([^`]+)`')

OWNER = re.compile(r'(?:pub )?trait (?P<trait>\w+)|impl(?:<.*?>)? (?:(?P<of>\w+)(?:<.*>)? for )?&?(?P<type>\w+)')
FUNCTION = re.compile(r'( *)(pub )?(?:const )?fn (\w+)')
CLAUSE = re.compile(r' +(?:(?:ensures|requires) (\w+)|ensures) \{')
GHOST = re.compile(r'    ghost (\w+)(?: =|:)')
DEFINITION = re.compile(r'(?:\w+ )?pub (?:(?:data|record) )?([\w-]+)')


class Citation(NamedTuple):
    """What is cited at a line: a name of a crate, which is None where none is told, and what it is to have."""
    line: int
    crate: str
    name: str
    wanted: list


class Declared(NamedTuple):
    """What a crate declares: the clauses of each public function or method, one set for each body that it has; the ghost items of each type or
    trait; and the traits of each type. A clause without a name is None."""
    functions: dict
    ghosts: dict
    traits: dict


def ends_contract(line, indent):
    """Whether a line ends the contract of a function that stands so far right: it opens the body, or there is none."""
    return line.startswith(indent) and line[len(indent):len(indent) + 1] != ' ' and line.endswith(('{', '{}', ';'))


def read_source(lines, declared):
    """Adds what the lines of a source declare."""
    owner = is_public = clauses = indent = None
    for line in lines:
        if found := OWNER.match(line):
            owner, is_public = found['trait'] or found['type'], bool(found['trait'] or found['of'])
            declared.traits.setdefault(owner, set()).update(filter(None, [found['of']]))
        elif line == '}':
            owner = is_public = None
        elif found := GHOST.match(line):
            declared.ghosts.setdefault(owner, set()).add(found[1])
        if found := FUNCTION.match(line):
            indent, clauses = found[1], set()
            if found[2] or is_public:
                declared.functions.setdefault('::'.join(filter(None, [owner, found[3]])), []).append(clauses)
        elif clauses is not None and (found := CLAUSE.match(line)):
            clauses.add(found[1])
        if clauses is not None and ends_contract(line, indent):
            clauses = None


def read_crate(folder):
    declared = Declared({}, {}, {})
    for path in sorted(folder.glob('src/**/*.rt')):
        read_source(path.read_text().split('\n'), declared)
    return declared


def read_crates():
    return {folder.name: read_crate(folder) for folder in sorted((TOP / 'crates').iterdir())}


def inherited(crates, crate, owner, method):
    """The clauses that a method has from the traits of its type, whichever crate declares these."""
    traits = crates[crate].traits.get(owner, ())
    return set().union(*(clauses for trait in traits for other in crates.values()
                         for clauses in other.functions.get('%s::%s' % (trait, method), [])))


def bodies_of(crates, crate, name):
    """The clauses of each body of a function or a method."""
    owner, _, method = name.rpartition('::')
    return [clauses | inherited(crates, crate, owner, method) for clauses in crates[crate].functions.get(name, [])]


def definitions_of(path):
    """The public definitions of a file, in a list of one set, or nothing where it isn't there."""
    return [{found[1] for line in path.read_text().split('\n') if (found := DEFINITION.match(line))}] if path.is_file() else []


def missing(crates, citation):
    """What of a citation isn't in the sources, each as a text."""
    crate, name, wanted = citation.crate, citation.name, citation.wanted
    if crate is None:
        return ['has no crate']
    if crate not in crates:
        return ['is of no crate here']
    if name.startswith('specs/'):
        there = definitions_of(TOP / 'crates' / crate / name)
    elif name in crates[crate].functions:
        there = bodies_of(crates, crate, name)
        wanted = wanted or [None]
    else:
        there = [crates[crate].ghosts[name]] if name in crates[crate].ghosts else []
    if not there:
        return ["isn't there"]
    return ['has no %s' % (item or 'ensures without a name') for item in wanted if not all(item in items for items in there)]


def as_citation(found, line, crate=None):
    own, name = IN_CRATE.fullmatch(found[1].strip('`')).groups()
    return Citation(line, own or crate, name, CODE.findall(found[2] or ''))


def in_text(text):
    """The citations of a text in which each name has its crate."""
    for found in CITED.finditer(text):
        citation = as_citation(found, text.count('\n', 0, found.start()) + 1)
        if citation.crate or citation.wanted:
            yield citation


def rows_of_crates(lines):
    """The number of each line that is a row of a table headed `Crate`."""
    is_row = False
    for number, line in enumerate(lines, 1):
        is_row = line.startswith('|') and (is_row or line.startswith('| Crate |'))
        if is_row and not line.startswith(('| Crate |', '|--')):
            yield number


def in_row(cells, line):
    """What the last cell of a row cites, and as texts what is wrong there."""
    crate = CODE.findall(cells[0])
    if not crate:
        yield 'the row has no crate'
    for part in (part.strip() for part in cells[-1].split(';')):
        if found := TESTED.fullmatch(part):
            yield from (path + " isn't there" for path in CODE.findall(found[1] or '') if not (TOP / path).is_file())
        elif found := CITED.fullmatch(part):
            yield as_citation(found, line, *crate)
        else:
            yield "'%s' is neither a citation nor tested" % part


def findings(crates, document):
    """What is wrong in a document, each with its line."""
    lines = (TOP / document).read_text().split('\n')
    rows = list(rows_of_crates(lines))
    cited = [(number, item) for number in rows for item in in_row(lines[number - 1].strip('| ').split(' | '), number)]
    text = '\n'.join('' if number in rows else line for number, line in enumerate(lines, 1))
    cited += [(citation.line, citation) for citation in in_text(text)]
    for number, item in sorted(cited, key=lambda pair: pair[0]):
        if isinstance(item, str):
            yield number, item
        else:
            yield from ((number, '%s %s' % (' '.join(filter(None, [item.crate, item.name])), what)) for what in missing(crates, item))


def main(documents):
    crates = read_crates()
    wrong = [(document, *finding) for document in documents for finding in findings(crates, document)]
    for finding in wrong:
        print('%s:%d: %s' % finding)
    return 1 if wrong else 0


if __name__ == '__main__':
    sys.exit(main(sys.argv[1:] or DOCUMENTS))
