#!/usr/bin/env python3
"""Writes the front part of a store, which may be damaged, as a new store, up to a record.

    tools/salvage.py STORE NEW [COUNT]

NEW gets the first COUNT records of STORE, each with its open gate, and a closed gate behind them; no file may stand there yet, and STORE is
left as it is. So where `covstore check` tells `damaged K`, COUNT is K - 1: what the records from K on did is lost. Without COUNT all are
taken that a program would read: those before a closed gate, or before the first that is cut or has another digest. Whether a record spells
a command, and one that is accepted, `covstore check` tells of NEW.

A gate that is spoilt looks closed, and what stands behind it isn't read any more. With a greater COUNT the tool goes on behind it, as long
as the digests fit, which only records of this store's own do. The last of those may be one that was being written when a run ended, and was
never acknowledged. A spoilt header is written anew.

It tells on standard error how many records it wrote, and of how many that fit. The exit status is 0 where NEW is written, 1 where STORE has
fewer records than COUNT, and 2 where the words are wrong or a file can't be read or written."""
import argparse
import hashlib
import os
import sys
from typing import NamedTuple

HEADER = b'COVSTORE\0\0\0\1'
OPEN, CLOSED = b'\1', b'\0'
LENGTH_BYTES, DIGEST_BYTES = 4, 32


class Front(NamedTuple):
    """The records that fit, each from its length to its digest, and how many of them a program reads: those before the first gate that
    isn't open."""
    records: list
    read: int


def record_at(image, begin, digest):
    """The record whose length stands at a place, behind one with this digest, or None where it is cut or has another digest."""
    payload = begin + LENGTH_BYTES
    end = payload + int.from_bytes(image[begin:payload], 'big')
    record = image[begin:end + DIGEST_BYTES]
    is_whole = len(record) == end + DIGEST_BYTES - begin and len(image) > end + DIGEST_BYTES
    if is_whole and hashlib.sha256(digest + image[payload:end]).digest() == record[-DIGEST_BYTES:]:
        return record
    return None


def front_of(image):
    records, read, gate, digest = [], None, len(HEADER), bytes(DIGEST_BYTES)
    while record := record_at(image, gate + 1, digest):
        if read is None and image[gate:gate + 1] != OPEN:
            read = len(records)
        records.append(record)
        gate, digest = gate + 1 + len(record), record[-DIGEST_BYTES:]
    return Front(records, len(records) if read is None else read)


def store_of(records):
    return HEADER + b''.join(OPEN + record for record in records) + CLOSED


def write_new(path, image):
    """Writes a file that isn't there yet, and syncs it."""
    with open(path, 'xb') as file:
        file.write(image)
        file.flush()
        os.fsync(file.fileno())


def main():
    parser = argparse.ArgumentParser(description=__doc__, formatter_class=argparse.RawDescriptionHelpFormatter)
    parser.add_argument('store', metavar='STORE')
    parser.add_argument('new', metavar='NEW')
    parser.add_argument('count', metavar='COUNT', type=int, nargs='?', help='how many records; those that a program reads if not given')
    given = parser.parse_args()
    try:
        with open(given.store, 'rb') as file:
            front = front_of(file.read())
        count = front.read if given.count is None else given.count
        if not 0 <= count <= len(front.records):
            print('salvage.py: %d records fit, and not %d' % (len(front.records), count), file=sys.stderr)
            return 1
        write_new(given.new, store_of(front.records[:count]))
    except OSError as fault:
        parser.error(str(fault))
    print('salvage.py: %d records of %d that fit' % (count, len(front.records)), file=sys.stderr)
    return 0


if __name__ == '__main__':
    sys.exit(main())
