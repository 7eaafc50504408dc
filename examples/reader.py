#!/usr/bin/env python3
"""Takes reader.c with all its variants into a store, fixes it in one of them, and compiles and runs two, in a temporary folder.

    examples/reader.py [PROGRAM]

PROGRAM is a built program, ./covstore of this checkout if there is none. It ends with 0 exactly if all is as expected: the conditional text
that tools/cond.py makes, each reply, and what each compiled reader writes. Else it tells what isn't, and ends with 1. It wants `cc`."""
import contextlib
import os
import pathlib
import subprocess
import sys
import tempfile

HERE = pathlib.Path(__file__).resolve().parent
PHONE = ('ENCRYPTED', 'PHONE', 'SEARCH')
DESK = ('THREADS', 'SPAM', 'LOG')
WORD = 'Keys'  # what is looked for on the phone


def expect(is_so, what):
    if not is_so:
        sys.exit('reader.py: ' + what)


def kept(name):
    return (HERE / name).read_bytes()


def ended(command, source=b''):
    """What a command writes on an input; it ends with 0."""
    done = subprocess.run(command, input=source, stdout=subprocess.PIPE)
    expect(done.returncode == 0, '%s ends with %d' % (' '.join(map(str, command)), done.returncode))
    return done.stdout


def turned(*words, source=b''):
    return ended([sys.executable, HERE.parent / 'tools' / 'cond.py', *words], source)


def shown(source, macros, *words):
    """What the reader of a source in C shows of the mail, and then what it tells on standard error."""
    ended(['cc', '-Wall', '-Wextra', '-Werror', *('-D' + macro for macro in macros), '-x', 'c', '-o', 'reader', '-'], source)
    done = subprocess.run(['./reader', *words], input=kept('reader.mbox'), capture_output=True)
    return done.stdout + done.stderr


def readers(program):
    """Each reader with its name: what it shows, and what it is to show."""
    was = kept('reader.c')
    before, phone, desk = (pathlib.Path('trees', name, 'reader.c').read_bytes() for name in ('before', 'phone', 'desk'))
    told = ended([program, 'run'], b'cond - /reader.c\n')
    now = turned('--back', source=told.partition(b'\n')[2])
    yield 'the phone before the fix', shown(before, ()), shown(was, PHONE)
    yield 'the phone before the fix, which finds nothing,', shown(before, (), WORD), b''
    yield 'the phone', shown(phone, (), WORD), kept('reader-phone.txt')
    yield 'the phone by the preprocessor', shown(now, PHONE, WORD), kept('reader-phone.txt')
    yield 'the desk', shown(desk, ()), kept('reader-desk.txt')
    yield 'the desk by the preprocessor', shown(now, DESK), kept('reader-desk.txt')
    yield 'the desk without the fix', shown(was, DESK), kept('reader-desk.txt')


def main():
    program = os.path.abspath(sys.argv[1] if len(sys.argv) > 1 else HERE.parent / 'covstore')
    expect(turned(HERE / 'reader.c') == kept('reader.cond'), 'tools/cond.py makes another text than reader.cond')
    with tempfile.TemporaryDirectory() as folder, contextlib.chdir(folder):
        for words, source, replies in ((['run'], 'reader.script', 'reader.replies'),
                                       (['import', '/reader.c'], 'reader.cond', 'reader-import.replies'),
                                       (['run'], 'reader-fix.script', 'reader-fix.replies')):
            expect(ended([program, *words], kept(source)) == kept(replies), 'the replies aren\'t those of ' + replies)
        for name, shows, expected in readers(program):
            expect(shows == expected, '%s shows something else' % name)


if __name__ == '__main__':
    main()
