#!/usr/bin/env python3
"""Times `replica` on the bytes of a store of 100,000 commits beside the `check` of that store, and asks it at random moments of a run of
1,000 commits, each time for the bytes that the store's file has then: it answers a front of the run's commits, with each one that was
acknowledged before the bytes were read."""
import random
import subprocess
import tempfile
import threading

import opening
from stops import COMMITS, STORE, script
from timing import Clock, at_least, at_most, build, elsewhere, least, ratio, tell, told

REPETITIONS, MOMENTS, LONGEST_WAIT = 3, 200, 0.05  # the wait in seconds
LINE = ('cat', '-', '/m')


def replicated(program, line, path=STORE, statuses=(0,)):
    """The clock of a replica of the bytes of a file, and what it printed."""
    clock = Clock()
    with open(path, 'rb') as source, tempfile.TemporaryFile() as out:
        clock.run(program, 'replica', *line, source=source, out=out, statuses=statuses)
        out.seek(0)
        return clock, out.read()


def both(program):
    """The clocks of a replica and of a check of the store that is here."""
    clock, printed = replicated(program, ('cat', '-', '/f0'))
    assert printed.startswith(b'ok replica %d\nok ' % (opening.COMMITS + 1)), 'all records are taken'
    return clock, told(program, 'check')[0]


def fed(program):
    with elsewhere():
        opening.store(STORE, opening.drawn)
        rounds = [both(program) for _ in range(REPETITIONS)]
    return [ratio('feeding 100,000 commits, to a check, ' + kind, ours, check, 's', 1.1) for kind, (ours, check) in least(rounds)]


def answer(count):
    """What a replica prints that has taken so many commands of the script."""
    if count == 0:
        return b'ok replica 0\nrefused no-such-path\n'
    lines = [b'%d line %d\n' % (number + 1, number) for number in reversed(range(count - 1))]
    return b'ok replica %d\nok %d\n' % (count, len(lines)) + b''.join(lines)


class Run:
    """A run of the script in the current folder, and how many of its commits are acknowledged."""

    def __init__(self, program):
        self.acknowledged = 0
        self.child = subprocess.Popen([program, 'run'], stdin=subprocess.PIPE, stdout=subprocess.PIPE)
        self.parts = [threading.Thread(target=part) for part in (self.send, self.hear)]
        for part in self.parts:
            part.start()

    def send(self):
        with self.child.stdin as source:
            source.write(script(COMMITS))

    def hear(self):
        for reply in self.child.stdout:
            self.acknowledged += reply.startswith(b'ok commit ')

    def goes_on(self):
        return self.child.poll() is None

    def end(self):
        for part in self.parts:
            part.join()
        assert self.child.wait() == 0 and self.acknowledged == COMMITS + 1


def asked(program, run):
    """How many commits a replica has of the bytes that the store's file has now beyond those that were acknowledged before."""
    before = run.acknowledged
    with open(STORE, 'rb') as store, open('copy', 'wb') as copy:
        copy.write(store.read())
    _, printed = replicated(program, LINE, 'copy', (0, 1))
    count = int(printed.split()[2])
    assert printed == answer(count), 'it is a front of the commits'
    return count - before


def at_moments(program):
    """How many moments were taken, and the least number of commits that a replica had beyond the acknowledged ones."""
    drawn, beyond = random.Random(MOMENTS), []
    while len(beyond) < MOMENTS:
        with elsewhere():
            run, pause = Run(program), threading.Event()
            while run.goes_on() and len(beyond) < MOMENTS:
                pause.wait(drawn.uniform(0, LONGEST_WAIT))
                if run.acknowledged:
                    beyond.append(asked(program, run))
            run.end()
    return len(beyond), min(beyond)


def figures(program):
    taken, least_beyond = at_moments(program)
    return [*fed(program), at_least('random moments of a run of 1,000 commits', taken, MOMENTS),
            at_most('acknowledged commits that a replica then lacks', max(0, -least_beyond), 0)]


if __name__ == '__main__':
    tell(figures(build()))
