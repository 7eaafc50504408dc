#!/usr/bin/env python3
"""Turns the conditions of a source in C into conditional text, which `covstore import PATH` reads, and back.

    tools/cond.py reader.c > reader.cond
    tools/cond.py --back reader.cond > reader.c
    tools/cond.py --options *.c > options.script

Without a FILE it reads standard input; of several files it prints one after the other. All is bytes, lines end at byte 10.

Conditional text is lines `#if E`, `#else`, `#endif`, where E is an expression over options, as `!a & (b | c)`; text lines; and `##` with a
rest, which is the text line `#` with that rest. An option is on where its macro is defined. So what is turned is `#ifdef NAME`, `#ifndef
NAME`, and `#if` with `defined(NAME)`, `defined NAME`, `!`, `&&`, `||`, parentheses, 0 and 1; `#else` and `#endif` of these; and `#elif`
(also `#elifdef`, `#elifndef`), which becomes an `#if` in the `#else`. Comments and line continuations in these lines are dropped, and
spaces aren't kept.

All else is text, byte for byte, with one more `#` where a line begins with one: other directives as `#include` and `#define`, and what
looks like a directive in a comment or behind a line continuation. So is an `#if` that can't be turned, with its `#elif`, `#else` and
`#endif`: one with numbers, comparisons, macros (also a name alone, which asks for its value); one with a name that the text itself
defines or undefines, since that differs from place to place; and one with a name that no option has: one of over 64 bytes, or `true`,
`false`, `on`, `off`, `for`. Blocks within it are turned, and an `#elif` there that can be turned is an `#if` in its `#else`.

`--back` writes `#ifdef`, `#ifndef` and `#if` with `defined(NAME)`. A directive that would stand in a comment or behind a line
continuation, where C sees none, is written and told.

`--options` prints a line `option NAME` for each name in conditions that are turned, in order of the first use, and no text.

On standard error it tells each line that it couldn't turn, by file and number. The exit status is 1 then, 0 else, and 2 where the words
are wrong or a file can't be read. The limits of a conditional text are looked at by the import.
"""
import argparse
import re
import sys
from typing import NamedTuple

SPLICE = rb'\\\r?\n'
COMMENT = rb'/\*(?s:.*?)(?:\*/|\Z)|//(?:' + SPLICE + rb'|[^\n])*'
QUOTED = rb'"(?:' + SPLICE + rb'|\\.|[^"\\\n])*"?|' + rb"'(?:" + SPLICE + rb"|\\.|[^'\\\n])*'?"
# A line as C sees it: with those that continue it, or into which a comment goes on.
LOGICAL = re.compile(rb'(?:' + SPLICE + rb'|' + COMMENT + rb'|' + QUOTED + rb'|[^\n])*+\n?')
BLANKED = re.compile(COMMENT + rb'|(' + QUOTED + rb')')
DIRECTIVE = re.compile(rb'#\s*(\w+)\s*(.*)', re.S)

IN_C = re.compile(rb'defined\b\s*(?:\(\s*\w+\s*\)|\w+)|&&|\|\||\w+|\S')
IN_TEXT = re.compile(rb'\w+|\S')
DEFINED = re.compile(rb'defined\b\W*(\w+)\W*')
NAME = re.compile(rb'[A-Za-z_]\w*')
LONGEST = 64
NO_OPTIONS = (b'true', b'false', b'on', b'off', b'for')
FROM_C = {b'&&': b'&', b'||': b'|', b'1': b'true', b'0': b'false', b'!': b'!', b'(': b'(', b')': b')'}
TO_C = {spelling: token for token, spelling in FROM_C.items()}


class Unturned(Exception):
    """Why a line can't be turned."""


class Turned(NamedTuple):
    """The lines made, the options named, in order, and the numbers of the lines that couldn't be turned, each with why."""
    lines: list
    options: list
    faults: list


def joined(tokens):
    """An expression of these tokens, whose operators and parentheses are right in C or in the format alike."""
    shape = b''.join(b'x' if re.search(rb'\w', token) else token[:1] for token in tokens)
    while (shorter := re.sub(rb'!x|x[&|]x|\(x\)', b'x', shape)) != shape:
        shape = shorter
    if shape != b'x':
        raise Unturned('no expression')
    return re.sub(rb'(?<=[!(]) | (?=\))', b'', b' '.join(tokens))


def physical(logical):
    return logical.removesuffix(b'\n').split(b'\n')


def logical_lines(source):
    """Each logical line with the number of its first line."""
    number = 1
    for line in filter(None, LOGICAL.findall(source)):
        yield number, line
        number += len(physical(line))


def directive(line):
    """The word of a directive and what follows, without comments and line continuations; two times nothing for another line."""
    bare = BLANKED.sub(lambda found: found[1] or b' ', re.sub(SPLICE, b'', line))
    found = DIRECTIVE.fullmatch(bare.strip())
    return found.groups() if found else (b'', b'')


class FromC:
    """Goes over a source in C. A block is the number of its first line and, for each `#if` that it is turned into, whether that is one of
    the format and not text."""

    def __init__(self, source):
        self.made, self.options, self.faults, self.blocks = [], {}, [], []
        read = [(number, line, *directive(line)) for number, line in logical_lines(source)]
        self.own = {re.match(rb'\w*', rest)[0] for _, _, word, rest in read if word in (b'define', b'undef')}
        for number, line, word, rest in read:
            self.take(number, line, word, rest)
        self.faults += [(number, 'no `#endif`') for number, _ in self.blocks]

    def text(self, line):
        self.made += [b'#' + part if part.startswith(b'#') else part for part in physical(line)]

    def put(self, is_turned, turned, line):
        """A line of the format, or the text in its place."""
        if is_turned:
            self.made.append(turned)
        else:
            self.text(line)

    def spelt(self, token):
        """A token of an expression of C in the format."""
        found = DEFINED.fullmatch(token)
        if not found:
            if token not in FROM_C:
                raise Unturned('`%s`' % token.decode(errors='replace'))
            return FROM_C[token]
        name = found[1]
        if not NAME.fullmatch(name) or len(name) > LONGEST or name in NO_OPTIONS:
            raise Unturned('no option has the name `%s`' % name.decode())
        if name in self.own:
            raise Unturned('the text itself defines or undefines `%s`' % name.decode())
        return name

    def condition(self, number, word, rest):
        """The line `#if E` for one of C, or None where it can't be turned, which is noted."""
        if word.endswith(b'def'):
            rest = (b'!' if word.endswith(b'ndef') else b'') + b'defined(' + rest + b')'
        try:
            tokens = [self.spelt(token) for token in IN_C.findall(rest)]
            turned = b'#if ' + joined(tokens)
        except Unturned as fault:
            self.faults.append((number, str(fault)))
            return None
        self.options.update(dict.fromkeys(token for token in tokens if NAME.fullmatch(token) and token not in NO_OPTIONS))
        return turned

    def take(self, number, line, word, rest):
        if word in (b'if', b'ifdef', b'ifndef'):
            turned = self.condition(number, word, rest)
            self.put(turned, turned, line)
            self.blocks.append((number, [turned is not None]))
        elif word in (b'elif', b'elifdef', b'elifndef', b'else', b'endif') and not self.blocks:
            self.faults.append((number, 'no `#if` before it'))
            self.text(line)
        elif word.startswith(b'elif'):
            self.take_elif(self.condition(number, word, rest), line, word, rest)
        elif word == b'else':
            self.put(self.blocks[-1][1][-1], b'#else', line)
        elif word == b'endif':
            for is_turned in reversed(self.blocks.pop()[1]):
                self.put(is_turned, b'#endif', line)
        else:
            self.text(line)

    def take_elif(self, turned, line, word, rest):
        levels = self.blocks[-1][1]
        if not turned and not levels[-1]:
            self.text(line)
            return
        self.put(levels[-1], b'#else', b'#else')
        self.put(turned, turned, b'#' + word.removeprefix(b'el') + b' ' + rest)
        levels.append(turned is not None)


def from_c(source):
    """The conditional text of a source in C."""
    made = FromC(source)
    return Turned(made.made, list(made.options), sorted(made.faults))


def in_c(condition):
    """The line of C for an expression of the format."""
    tokens = [TO_C.get(token) or (b'defined(%s)' % token if NAME.fullmatch(token) else b'?') for token in IN_TEXT.findall(condition)]
    turned = b'#if ' + joined(tokens)
    simple = re.fullmatch(rb'#if (!?)defined\((\w+)\)', turned)
    return b'#if%sdef %s' % (b'n' if simple[1] else b'', simple[2]) if simple else turned


def to_c(source):
    """The source in C of a conditional text."""
    made, faults, directives = [], [], []
    for number, line in enumerate(source.removesuffix(b'\n').split(b'\n') if source else [], 1):
        if line.startswith(b'##'):
            line = line[1:]
        elif line.startswith(b'#'):
            directives.append(number)
            try:
                if line.startswith(b'#if '):
                    line = in_c(line[4:])
                elif line not in (b'#else', b'#endif'):
                    raise Unturned('no line of conditional text')
            except Unturned as fault:
                faults.append((number, str(fault)))
        made.append(line)
    seen = {number for number, _ in logical_lines(b'\n'.join(made))}
    faults += [(number, 'in C no directive stands there') for number in directives if number not in seen]
    return Turned(made, [], sorted(faults))


def main():
    parser = argparse.ArgumentParser(description=__doc__, formatter_class=argparse.RawDescriptionHelpFormatter)
    ways = parser.add_mutually_exclusive_group()
    ways.add_argument('--back', action='store_true', help='from conditional text to C')
    ways.add_argument('--options', action='store_true', help='the lines `option NAME` for the names used')
    parser.add_argument('files', nargs='*', metavar='FILE', default=['/dev/stdin'])
    given = parser.parse_args()
    options, status = {}, 0
    for name in given.files:
        try:
            with open(name, 'rb') as file:
                source = file.read()
        except OSError as fault:
            parser.error(str(fault))
        turned = (to_c if given.back else from_c)(source)
        for number, fault in turned.faults:
            print('%s:%d: not turned: %s' % (name, number, fault), file=sys.stderr)
            status = 1
        options.update(dict.fromkeys(turned.options))
        if not given.options:
            sys.stdout.buffer.writelines(line + b'\n' for line in turned.lines)
    if given.options:
        sys.stdout.buffer.writelines(b'option %s\n' % option for option in options)
    return status


if __name__ == '__main__':
    sys.exit(main())
