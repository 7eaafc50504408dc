#!/usr/bin/env python3
"""Times the opening of a store of 100,000 commits, each of one line of 40 bytes, and tells its peak of memory: once where each line
is put first into its file, and once where it is put behind one that is drawn from those of its file. The store's bytes are made here,
since the program takes far longer to make it: each session copies all lines of its variant."""
import hashlib
import random
import struct

from timing import at_least, at_most, build, elsewhere, in_unit, least, peak_of, tell, told

COMMITS, FILES, TEXT, REPETITIONS = 100000, 100, 40, 3


def node(number):
    """A node, or a line, of before."""
    return struct.pack('>BI', 0, number)


def commit(base, edits):
    """The record of a commit in the variant of no options, for all variants."""
    return struct.pack('>BIBBI', 5, base, 0, 1, len(edits)) + b''.join(edits)


def first(number):
    """The head of the file, as what the line of a commit is put behind."""
    return 0


def drawn(number):
    """A line of the commits before that is in the file of this one, or its head; lines have numbers from 1 on."""
    before = number // FILES
    which = random.Random(number).randrange(before + 1)
    return which and (which - 1) * FILES + number % FILES + 1


def records(anchor):
    names = [b'f%d' % number for number in range(FILES)]
    yield commit(0, [struct.pack('>BB', 1, 0) + node(0) + bytes([len(name)]) + name for name in names])
    for number in range(COMMITS):
        text = (b'line %d ' % number).ljust(TEXT, b'x')
        yield commit(number + 1, [struct.pack('>B', 2) + node(number % FILES + 1) + node(anchor(number)) + struct.pack('>H', TEXT) + text])


def store(path, anchor):
    """Writes the store; its number of bytes."""
    digest = bytes(32)
    with open(path, 'wb') as file:
        file.write(b'COVSTORE' + struct.pack('>I', 1))
        for record in records(anchor):
            digest = hashlib.sha256(digest + record).digest()
            file.write(struct.pack('>BI', 1, len(record)) + record + digest)
        file.write(bytes(1))
        return file.tell()


def opened(program):
    """The clock of an opening."""
    clock, reply = told(program, 'check')
    assert reply == b'ok %d records\n' % (COMMITS + 1), 'all records are read'
    return clock


def of_store(program, name, anchor):
    """The figures of a store of lines with such anchors. Three times its text and 100 MB is the most that an opening may take."""
    with elsewhere():
        size = store('store.cov', anchor)
        rounds = [(opened(program),) for _ in range(REPETITIONS)]
        peak = peak_of([program, 'check'])
    times = {kind: taken for kind, (taken,) in least(rounds)}
    parts = ', '.join('%s %s' % (in_unit(taken, 's'), kind) for kind, taken in times.items())
    return [at_least('journal a second, %s (aim 50)' % name, size / times['elapsed'] / 1e6, 30, 'MB/s', parts),
            at_most('peak, ' + name, peak, 3 * COMMITS * TEXT / 1e6 + 100, 'MB')]


def figures(program):
    return of_store(program, 'each line first', first) + of_store(program, 'each behind a drawn one', drawn)


if __name__ == '__main__':
    tell(figures(build()))
