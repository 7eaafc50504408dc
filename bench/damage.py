#!/usr/bin/env python3
"""Spoils a store of ten records, each byte in turn and by each cut, and compares what the program answers and leaves with what
`docs/FORMATS.md` says; with `--peer PROGRAM` also with what another program answers and leaves."""
import argparse
import collections
import os
import pathlib
import subprocess
from typing import NamedTuple

import journal
from timing import RAM_DISK, at_most, build, elsewhere, tell

RECORDS = b"""option a
option b
constraint !(a & b)
prefer b
default a off
open s - for true
mkdir s /d
mkfile s /d/m
insert s /d/m 0 one
commit s
open s - for b
insert s /d/m 1 two
commit s
open s - for true
replace s /d/m 1 three
commit s
open s a=on for true
mkfile s /x
rename s /x y
commit s
open s - for b
move s /d/m /
remove s /y
delete s /m 2
commit s
"""
COUNT = 10
VALUES = b'\0\1\2\5\n\x7f\x80\xff'
OPTION = b'\1'  # what a payload that declares an option begins with
WORDS = ('check', 'run')
DONE, IS_NO_STORE, IS_DAMAGED = 0, 8, 9  # statuses


class Answer(NamedTuple):
    """What a program writes, to its standard error too, its status, and the bytes of the store that it leaves."""
    told: bytes
    status: int
    image: bytes


def answered(program, word, image):
    """What a program does over a store of these bytes in the current folder, in which it leaves nothing else."""
    store = pathlib.Path('store.cov')
    store.write_bytes(image)
    ended = subprocess.run([program, word], input=journal.ONE_MORE, stdout=subprocess.PIPE, stderr=subprocess.STDOUT)
    assert os.listdir() == ['store.cov'], os.listdir()
    return Answer(ended.stdout, ended.returncode, store.read_bytes())


def expected(word, image, reading):
    """What is to be done over a store of these bytes, of which each record that is whole is one of the program's own."""
    if reading.damage == journal.NOT_A_STORE:
        return Answer(b'not-a-store\n', IS_NO_STORE, image)
    count = len(reading.payloads)
    if reading.damage:
        return Answer(b'damaged %d %s\n' % (count + 1, reading.damage.encode()), IS_DAMAGED, image)
    opened = image if len(image) > len(journal.EMPTY) else journal.EMPTY
    if word == 'check':
        return Answer(b'ok %d records\n' % count, DONE, opened)
    options = sum(payload.startswith(OPTION) for payload in reading.payloads)
    return Answer(b'ok option %d\n' % options, DONE, journal.continued(opened, reading, journal.PAYLOAD_OF_IT))


def made(program):
    """The store of ten records."""
    with elsewhere(RAM_DISK):
        subprocess.run([program, 'run'], input=RECORDS, stdout=subprocess.DEVNULL, check=True)
        return pathlib.Path('store.cov').read_bytes()


def spoilt(image):
    """The images that have another of the values in the place of one byte, and those that end before."""
    for at, byte in enumerate(image):
        for value in VALUES:
            if value != byte:
                yield image[:at] + bytes([value]) + image[at + 1:]
    for length in range(len(image)):
        yield image[:length]


def differing(program, peer):
    """How many images there are by what they come to, and of their answers, by whom they differ from: the file's description, the peer."""
    whole = made(program)
    held = journal.read(whole).payloads
    assert len(held) == COUNT
    causes, others = collections.Counter(), collections.Counter()
    with elsewhere(RAM_DISK):
        for image in [whole, *spoilt(whole)]:
            reading = journal.read(image)
            assert reading.payloads == held[:len(reading.payloads)], 'no other record has its digest'
            causes[reading.damage] += 1
            for word in WORDS:
                answer = answered(program, word, image)
                others['format'] += answer != expected(word, image, reading)
                others['peer'] += peer is not None and answer != answered(peer, word, image)
    return causes, others


def figures(program, peer=None):
    causes, others = differing(program, peer)
    count = len(WORDS) * sum(causes.values())
    opened = causes.pop(None)
    parts = 'of %d over %d stores: %s, %d open' % (
        count, count // len(WORDS), ', '.join('%d %s' % (number, cause) for cause, number in sorted(causes.items())), opened)
    told = [at_most('answers over a spoilt store that are other ones', others['format'], 0, parts=parts)]
    if peer:
        told.append(at_most('the same, other ones than the peer gives', others['peer'], 0, parts='of %d' % count))
    return told


def words():
    parser = argparse.ArgumentParser(description=__doc__)
    parser.add_argument('program', nargs='?', help='the built covstore; it is proved and built if none is given')
    parser.add_argument('--peer', metavar='PROGRAM', help='another program for the same words and the same file')
    return parser.parse_args()


if __name__ == '__main__':
    given = words()
    tell(figures(build([given.program] if given.program else []), given.peer and os.path.abspath(given.peer)))
