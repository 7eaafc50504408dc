#!/usr/bin/env python3
"""Tries `tools/salvage.py` over a small store that is cut at each place, and of which each byte is changed.

    tools/test_salvage.py PROGRAM

PROGRAM is the built program, which makes the store and checks what was salvaged. What is to come out is told by bench/journal.py, which
reads a store by itself. It ends with 0 exactly if all comes out so."""
import os
import pathlib
import re
import subprocess
import sys
import tempfile
import unittest

HERE = pathlib.Path(__file__).resolve().parent
sys.path += [str(HERE), str(HERE.parent / 'bench')]
import damage
import journal
import salvage

TOOL = HERE / 'salvage.py'
STORE, NEW = 'store.cov', 'new.cov'
VALUES, ANOTHER = b'\0\1\2\xff', b'\x55'
PROGRAM = os.path.abspath(sys.argv.pop(1)) if len(sys.argv) > 1 else sys.exit(__doc__)


def ends_of(image):
    """The places of the gates of a store."""
    gates = [len(journal.HEADER)]
    for payload in journal.read(image).payloads:
        gates.append(gates[-1] + 1 + journal.LENGTH_BYTES + len(payload) + journal.DIGEST_BYTES)
    return gates


def changed(image, places, values=VALUES):
    """A store with another value in the place of one byte."""
    for at in places:
        for value in values:
            if value != image[at]:
                yield at, image[:at] + bytes([value]) + image[at + 1:]


def checked(image):
    """What the program tells of a store of these bytes."""
    pathlib.Path(STORE).write_bytes(image)
    return subprocess.run([PROGRAM, 'check'], stdin=subprocess.DEVNULL, stdout=subprocess.PIPE).stdout.decode()


class Salvage(unittest.TestCase):
    def setUp(self):
        folder = tempfile.TemporaryDirectory()
        self.addCleanup(folder.cleanup)
        self.addCleanup(os.chdir, os.getcwd())
        os.chdir(folder.name)
        subprocess.run([PROGRAM, 'run'], input=damage.RECORDS, stdout=subprocess.DEVNULL, check=True)
        self.image = pathlib.Path(STORE).read_bytes()
        self.gates = ends_of(self.image)
        self.assertEqual(len(self.gates), damage.COUNT + 1)

    def salvaged(self, *words, status=0):
        """The new store that the tool writes, whose status this is; None where it writes none."""
        pathlib.Path(NEW).unlink(missing_ok=True)
        ended = subprocess.run([sys.executable, TOOL, STORE, NEW, *words], capture_output=True)
        self.assertEqual((ended.returncode, ended.stdout), (status, b''), ended)
        self.assertEqual(os.path.exists(NEW), status == 0)
        return pathlib.Path(NEW).read_bytes() if status == 0 else None

    def front(self, count):
        return self.image[:self.gates[count]] + journal.CLOSED

    def test_each_byte_and_cut(self):
        for _, image in changed(self.image, range(len(self.image))):
            reading = journal.read(image)
            found = salvage.front_of(image)
            if reading.damage != journal.NOT_A_STORE:
                self.assertEqual(salvage.store_of(found.records[:found.read]), self.front(len(reading.payloads)))
        for length in range(len(self.image)):
            found = salvage.front_of(self.image[:length])
            self.assertEqual(found.read, len(found.records))
            self.assertEqual(salvage.store_of(found.records), self.front(len(journal.read(self.image[:length]).payloads)))

    def test_each_record_by_the_program(self):
        for number, (begin, end) in enumerate(zip(self.gates, self.gates[1:])):
            parts = (begin + 1, begin + 1 + journal.LENGTH_BYTES, end - 1)
            spoilt = [image for _, image in changed(self.image, parts, ANOTHER)] + [self.image[:at] for at in (begin + 3, *parts[1:], end)]
            for image in spoilt:
                found = re.fullmatch(r'damaged (\d+) (?:cut|digest)\n', checked(image))
                self.assertEqual(int(found[1]), number + 1)
                self.assertEqual(self.salvaged(str(number)), self.front(number))
                self.assertEqual(self.salvaged(), self.front(number))
                self.salvaged(str(number + 1), status=1)
                self.assertEqual(checked(self.front(number)), 'ok %d records\n' % number)

    def test_each_gate(self):
        for number, gate in enumerate(self.gates[:-1]):
            for image in (self.image[:gate] + bytes([value]) + self.image[gate + 1:] for value in b'\0\xff'):
                self.assertEqual(checked(image), 'ok %d records\n' % number)
                self.assertEqual(self.salvaged(), self.front(number))
                self.assertEqual(self.salvaged(str(damage.COUNT)), self.image, 'behind the gate the digests fit')

    def test_header(self):
        for at, image in changed(self.image, range(len(journal.HEADER)), ANOTHER):
            self.assertEqual(checked(image), 'not-a-store\n', at)
            self.assertEqual(self.salvaged(), self.image)

    def test_record_that_is_refused(self):
        """A record that is whole, and whose command is refused after those before it, is told by the program alone."""
        twice = journal.continued(self.image, journal.read(self.image), b'\1\1a')
        self.assertEqual(checked(twice), 'damaged %d refused exists\n' % (damage.COUNT + 1))
        self.assertEqual(self.salvaged(), twice)
        self.assertEqual(self.salvaged(str(damage.COUNT)), self.image)

    def test_words(self):
        self.assertEqual(self.salvaged('0'), journal.EMPTY)
        self.salvaged('11', status=1)
        pathlib.Path(NEW).write_bytes(b'kept')
        ended = subprocess.run([sys.executable, TOOL, STORE, NEW], capture_output=True)
        self.assertEqual((ended.returncode, pathlib.Path(NEW).read_bytes()), (2, b'kept'))
        ended = subprocess.run([sys.executable, TOOL, 'no.cov', 'none.cov'], capture_output=True)
        self.assertEqual((ended.returncode, os.path.exists('none.cov')), (2, False))


if __name__ == '__main__':
    unittest.main()
