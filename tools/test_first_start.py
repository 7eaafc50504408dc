#!/usr/bin/env python3
"""Tries `tools/first-start` over small crates with an `rt` that only waits a moment in the place of a proof.

    tools/test_first_start.py [PROGRAM]

The program plays no part in it. That `rt` keeps others out of the crates that it works in, hands what is proved to other folders or
doesn't, and notes when it began and ended. It ends with 0 exactly if each crate is proved once, after those below it, and several at a time;
if a start that was stopped goes on where it was; and if a crate that isn't proved is told."""
import os
import pathlib
import shutil
import signal
import subprocess
import sys
import tempfile
import time
import unittest
from typing import NamedTuple

TOOL = pathlib.Path(__file__).resolve().with_name('first-start')
CRATES = {'cov_base': [], 'cov_left': ['cov_base'], 'cov_right': ['cov_base', 'sha2'], 'cov_more': ['cov_base'],
          'cov_above': ['cov_left', 'cov_right'], 'cov_cli': ['cov_above', 'cov_more']}
NOT_NEEDED = 'cov_tests: cov_base\n'
PACE = 'SAY, LOOK = 30, 0.2'  # a test doesn't wait for so long
MEMORY = 'OF_FREE = 0.85'
PROCESSORS = 'len(os.sched_getaffinity(0))'

# It proves the libraries below first, as rt does, and holds the folders of all as long as it works.
RT = r"""#!/usr/bin/env python3
import fcntl, os, pathlib, sys, time
here, kept = pathlib.Path.cwd(), pathlib.Path(os.environ['KEPT'])
top = here.parent.parent
rows = [line.partition(':') for line in (top / 'crates.txt').read_text().splitlines() if line[0] != '#']
names = {name: [it for it in rest.split() if it.startswith('cov_')] for name, _, rest in rows}
for name in names:
    assert (top / 'crates' / name / 'src').is_dir()

def below(name):
    return dict.fromkeys(found for it in names[name] for found in (*below(it), it))

def note(word, name):
    with open(kept / 'notes', 'a') as notes:
        print(word, name, os.path.basename(top), time.monotonic(), file=notes, flush=True)

def prove(name):
    built = top / 'crates' / name / 'out' / 'built'
    if built.exists() or os.environ['SHARED'] == '1' and (kept / name).exists():
        return built.parent.mkdir(exist_ok=True) or built.touch()
    note('began', name)
    time.sleep(float(os.environ['SECONDS']))
    if os.environ['FAILS'] == name:
        print(name + ': not proved', flush=True)
        sys.exit(1)
    print('logic=proved ' + name, flush=True)
    note('ended', name)
    built.parent.mkdir(exist_ok=True)
    built.touch()
    (kept / name).touch()

held = [os.open(top / 'crates' / name, os.O_RDONLY) for name in sorted({*below(here.name), here.name})]
for it in held:
    fcntl.flock(it, fcntl.LOCK_EX)
for name in (*below(here.name), here.name):
    prove(name)
if sys.argv[1] == 'run':
    program = here / 'out' / here.name
    program.write_text('#!/bin/sh\n')
    program.chmod(0o755)
    sys.exit(2)
"""


class Proof(NamedTuple):
    """When a proof began and ended, and in which folder."""
    began: float
    ended: float
    lane: str


def below(name):
    named = [it for it in CRATES[name] if it in CRATES]
    return {*named, *(found for it in named for found in below(it))}


class FirstStart(unittest.TestCase):
    def setUp(self):
        self.folder = pathlib.Path(tempfile.mkdtemp())
        self.addCleanup(shutil.rmtree, self.folder)
        self.top, self.kept, self.caches = (self.folder / name for name in ('top', 'kept', 'caches'))
        for name in (*CRATES, 'cov_tests'):
            (self.top / 'crates' / name / 'src').mkdir(parents=True)
            (self.top / 'crates' / name / 'src' / 'lib.rt').write_text('// one line\n')
        for folder in (self.kept, self.caches, self.folder / 'bin', self.top / 'tools'):
            folder.mkdir()
        rows = ''.join('%s: %s\n' % (name, ' '.join(of)) for name, of in CRATES.items())
        (self.top / 'crates.txt').write_text('# Each crate.\n' + rows + NOT_NEEDED)
        (self.top / 'HANDLES').write_text('Handles allowed: none.\n')
        shutil.copy(TOOL, self.top / 'tools')
        self.change(PACE, 'SAY, LOOK = 0.3, 0.05')
        (self.folder / 'bin' / 'rt').write_text(RT)
        (self.folder / 'bin' / 'rt').chmod(0o755)

    def change(self, old, new):
        """Puts something in the place of a line of the tool."""
        tool = self.top / 'tools' / 'first-start'
        self.assertEqual(tool.read_text().count(old), 1)
        tool.write_text(tool.read_text().replace(old, new))

    def begun(self, *words, shared='1', seconds='0.4', fails=''):
        """A start with such an `rt`."""
        env = {**os.environ, 'PATH': '%s:%s' % (self.folder / 'bin', os.environ['PATH']), 'XDG_CACHE_HOME': str(self.caches),
               'KEPT': str(self.kept), 'SHARED': shared, 'SECONDS': seconds, 'FAILS': fails}
        return subprocess.Popen([self.top / 'tools' / 'first-start', *words], env=env, stdout=subprocess.PIPE, stderr=subprocess.PIPE)

    def ended(self, child, status=0):
        """What a start tells that ends with this status."""
        out, told = child.communicate()
        self.assertEqual((child.returncode, out), (status, b''), told.decode())
        return told.decode()

    def notes(self):
        return [line.split() for line in (self.kept / 'notes').read_text().splitlines()]

    def proofs(self):
        """The proofs by crate, each of which was proved once."""
        notes = self.notes()
        began = {name: float(at) for word, name, _, at in notes if word == 'began'}
        self.assertEqual(sorted(began), sorted(name for word, name, _, _ in notes if word == 'ended'))
        return {name: Proof(began[name], float(at), lane) for word, name, lane, at in notes if word == 'ended'}

    def in_order(self, proofs):
        for name, proof in proofs.items():
            self.assertTrue(all(proofs[it].ended <= proof.began for it in below(name) if it in proofs), (name, proofs))

    def is_built(self):
        return os.access(self.top / 'crates' / 'cov_cli' / 'out' / 'cov_cli', os.X_OK)

    def test_side_by_side(self):
        told, proofs = self.ended(self.begun()), self.proofs()
        self.assertIn('covstore: 0 of 6 crates, 0 minutes; now cov_base\n', told)
        self.assertIn('covstore: 6 of 6 crates, 0 minutes; ', told)
        self.assertEqual(set(proofs), set(CRATES))
        self.in_order(proofs)
        self.assertTrue(self.is_built())
        self.assertEqual(list(self.caches.glob('*/*')), [], 'the copies are removed')
        if len(os.sched_getaffinity(0)) > 1:
            self.assertLess(proofs['cov_left'].began, proofs['cov_right'].ended)
            self.assertLess(proofs['cov_right'].began, proofs['cov_left'].ended)

    def in_turn(self, proofs):
        times = sorted((proof.began, proof.ended) for proof in proofs.values())
        self.assertTrue(all(one[1] <= other[0] for one, other in zip(times, times[1:])), proofs)

    def test_little_memory(self):
        self.change(MEMORY, 'OF_FREE = 0')
        self.ended(self.begun(seconds='0.2'))
        self.in_turn(self.proofs())

    def test_one_processor(self):
        self.change(PROCESSORS, '1')
        told, proofs = self.ended(self.begun(seconds='0.2')), self.proofs()
        self.in_turn(proofs)
        self.assertEqual({proof.lane for proof in proofs.values()}, {'top'})
        self.assertNotIn('handed', told)

    def test_nothing_shared(self):
        told = self.ended(self.begun(shared='0'))
        if len(os.sched_getaffinity(0)) > 1:
            self.assertIn('isn\'t handed to another here', told)
            lanes = [lane for word, name, lane, _ in self.notes() if word == 'ended' and name != 'cov_base']
            self.assertEqual(set(lanes), {'top'})
        self.assertTrue(self.is_built())

    def test_stopped(self):
        child = self.begun(seconds='1')
        while not (self.kept / 'cov_base').exists():
            time.sleep(0.1)
        child.send_signal(signal.SIGTERM)
        self.assertRegex(self.ended(child, 1), 'covstore: stopped; [01] of 6 crates are proved')
        before = len(self.notes())
        self.assertFalse(self.is_built())
        time.sleep(1.5)
        self.assertEqual(len(self.notes()), before, 'what it began has ended with it')
        self.ended(self.begun())
        self.assertEqual([name for word, name, _, _ in self.notes() if word == 'ended'].count('cov_base'), 1)
        self.assertTrue(self.is_built())

    def test_not_proved(self):
        told = self.ended(self.begun(fails='cov_right'), 1)
        self.assertIn('cov_right: not proved\n', told)
        self.assertRegex(told, 'covstore: cov_right isn\'t proved; [1-4] of 6 crates are')
        self.assertNotIn('cov_above', [name for _, name, _, _ in self.notes()])
        self.assertFalse(self.is_built())
        self.ended(self.begun())
        self.assertTrue(self.is_built())

    def test_since(self):
        self.ended(self.begun())
        stamp = self.folder / 'stamp'
        stamp.touch()
        time.sleep(0.1)
        for name in ('cov_left', 'cov_above', 'cov_cli'):
            (self.kept / name).unlink(missing_ok=True)
            shutil.rmtree(self.top / 'crates' / name / 'out')
        (self.top / 'crates' / 'cov_left' / 'src' / 'lib.rt').write_text('// another line\n')
        (self.kept / 'notes').unlink()
        told, proofs = self.ended(self.begun('--since', stamp)), self.proofs()
        self.assertIn('3 of 3 crates', told)
        self.assertEqual(set(proofs), {'cov_left', 'cov_above', 'cov_cli'})
        self.in_order(proofs)

    def test_two_at_once(self):
        one, other = self.begun(), self.begun()
        told = self.ended(one) + self.ended(other)
        self.assertIn('another first start is at work', told)
        self.assertEqual(set(self.proofs()), set(CRATES))


if __name__ == '__main__':
    unittest.main(argv=sys.argv[:1])
