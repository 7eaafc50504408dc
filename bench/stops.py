#!/usr/bin/env python3
"""Stops the program while it serves a script, and looks for each acknowledged command in the store that it leaves.

Each call of the system fails once that a script of plain use makes, one with options and directories and one of commits, with one error
after another, by Debian's `strace`; each allocation of the first two fails once, and each of the line whose commit has the table swept;
the program is killed at random moments of a script of 1,000 commits; two runs of the script `covstore` are begun at once; and what stands
in the place of the store's file is something else."""
import argparse
import collections
import contextlib
import fcntl
import functools
import itertools
import os
import pathlib
import random
import re
import shutil
import signal
import socket
import stat
import subprocess
import tempfile
import time
from typing import NamedTuple

import journal
from timing import COVSTORE, RAM_DISK, TOP, at_most, build, compiled, elsewhere, tell, tree

COMMITS, FAILING, KILLS, PAIRS = 1000, 5, 2000, 200
SWEPT = 64  # with each commit of this number in a run the table is swept
CALLS = ('open', 'openat', 'statx', 'fstat', 'newfstatat', 'lseek', 'read', 'pread64', 'write', 'pwrite64', 'fsync', 'fdatasync', 'mkdir',
         'mkdirat')
ERRORS = ('EIO', 'ENOSPC', 'EACCES', 'EINTR', 'EMFILE')
INTERRUPTED = 'EINTR'
WELL, SOME_REFUSED, NO_MEMORY, NO_INPUT, NO_OUTPUT, NO_STORE, NO_TREES, TOO_LONG, NOT_BUILT = 0, 1, 3, 4, 5, 6, 7, 10, 125  # statuses
STATUSES = range(TOO_LONG + 1)  # of the program
EXPLAINED = (NO_MEMORY, NO_INPUT, NO_OUTPUT, NO_STORE, NO_TREES, TOO_LONG)  # by the script `covstore`
STANDARD = (NO_INPUT, NO_OUTPUT)  # the devices at which an interrupted call is repeated
STORE = 'store.cov'
ACKNOWLEDGING = tuple(b'ok %s ' % kind for kind in (b'option', b'constraint', b'prefer', b'default', b'commit'))
# The script that the gate runs the program on, with a checkout.
PLAIN = pathlib.Path(TOP, 'crates', 'cov_cli', 'stdin').read_bytes() + b'checkout t -\n'
FURTHER = b"""option a
default a off
open s - for true
mkdir s /d
mkfile s /d/m
insert s /d/m 0 line 0
commit s
checkout t -
"""
WORDS = (('run',), ('check',), ('demo', '1'), ('import', '/m'))  # that open the store


def script(count):
    lines = ['open s - for true', 'mkfile s /m', 'commit s']
    for number in range(count):
        lines += ['open s - for true', 'insert s /m 0 line %d' % number, 'commit s']
    return ''.join(line + '\n' for line in lines).encode()


class Whole(NamedTuple):
    """What a run that nothing stops replies, and the payloads and the trees that it leaves in an empty folder."""
    replies: bytes
    payloads: list
    trees: dict


class Call(NamedTuple):
    """The call of that number, from 1, among those of a name, and the status that tells of its device."""
    name: str
    number: int
    status: int


class Stopped(NamedTuple):
    """How a run ended, and how many commands more than were acknowledged its store has, less than none where it lost some."""
    status: int
    beyond: int


def acknowledged(replies):
    """How many commands were acknowledged: their whole replies were written."""
    return sum(line.startswith(ACKNOWLEDGING) for line in replies.split(b'\n')[:-1])


def records(program):
    """How many commands the store has, which opens."""
    told = subprocess.run([program, 'check'], stdin=subprocess.DEVNULL, capture_output=True)
    kept = re.fullmatch(rb'ok (\d+) records\n', told.stdout)
    assert told.returncode == 0 and kept, told
    return int(kept[1])


def payloads():
    """The payloads of the store's records, none of which is damaged."""
    reading = journal.read(pathlib.Path(STORE).read_bytes())
    assert reading.damage is None, reading
    return reading.payloads


def go_on(program):
    """The next run goes on from the records that are there."""
    image = pathlib.Path(STORE).read_bytes()
    subprocess.run([program, 'run'], input=journal.ONE_MORE, stdout=subprocess.DEVNULL, check=True)
    assert pathlib.Path(STORE).read_bytes() == journal.continued(image, journal.read(image), journal.PAYLOAD_OF_IT)


def undisturbed(program, text, place=None):
    """What a run leaves and replies that nothing stops."""
    with elsewhere(place):
        replies = subprocess.run([program, 'run'], input=text, stdout=subprocess.PIPE, stderr=subprocess.DEVNULL, check=True).stdout
        return Whole(replies, payloads(), tree('trees'))


def is_front(rows, whole):
    """Whether rows of trees are the first of all, in their order; the last of them may lack some of its bytes."""
    paths = sorted(whole)[:len(rows)]
    if sorted(rows) != paths or any(rows[path] != whole[path] for path in paths[:-1]):
        return False
    return all(rows[path] == whole[path] or whole[path].startswith(rows[path] or b'') for path in paths[-1:])


def stopped(program, whole, ended):
    """Looks at what a run leaves in the current folder, however it ended. What it replied is the front of what is replied where nothing
    stops it; a tree whose reply was written is whole, and the rows of the others are a front; the store opens, and has a front of the
    commands. Where the run ended well all is whole."""
    rows, replied = tree('trees'), re.findall(rb'^ok checkout (\S+) .*\n', ended.stdout, re.MULTILINE)
    assert whole.replies.startswith(ended.stdout), ended
    assert is_front(rows, whole.trees), (ended, rows)
    assert all(rows.get(path) == whole.trees[path] for path in whole.trees if path.split(b'/')[0] in replied), (ended, rows)
    kept = records(program)
    assert kept == len(payloads()) and whole.payloads[:kept] == payloads(), (ended, kept)
    go_on(program)
    assert ended.returncode != WELL or (ended.stdout, rows, kept) == (whole.replies, whole.trees, len(whole.payloads)), ended
    return Stopped(ended.returncode, kept - acknowledged(ended.stdout))


@contextlib.contextmanager
def over(image):
    """Meanwhile the current folder is a new one, with a store of these bytes if there is one."""
    with elsewhere():
        if image is not None:
            pathlib.Path(STORE).write_bytes(image)
        yield


def device(line, folder):
    """The status that tells of the device that a traced call is made on; none for what the loader of programs reads."""
    if line.startswith('read(0<'):
        return NO_INPUT
    if line.startswith('write(1<'):
        return NO_OUTPUT
    path = re.match(r'\w+\((?:AT_FDCWD<[^>]*>, "([^"]*)"|"([^"]*)"|\d+<([^>]*)>)', line)
    path = os.path.relpath(os.path.join(folder, next(filter(None, path.groups()))), folder)
    if path in ('.', STORE):
        return NO_STORE
    return NO_TREES if path.split('/')[0] == 'trees' else None


def traced(command, text, *options):
    """A command whose calls strace writes to a file, and these, each in a line."""
    with tempfile.NamedTemporaryFile('r', encoding='ascii', errors='replace') as lines:
        ended = subprocess.run(['strace', '-y', '-o', lines.name, *options, *command], input=text, capture_output=True)
        return ended, lines.read().splitlines()


def calls(command, text, image=None):
    """The calls that the program makes on its devices, over a store of these bytes if there is one."""
    made, counts = [], collections.Counter()
    with over(image):
        for line in traced(command, text, '-e', 'trace=' + ','.join(CALLS))[1]:
            name = re.match(r'\w+(?=\()', line)
            if name:
                counts[name[0]] += 1
                status = device(line, os.getcwd())
                assert status or not made, line
                made += [Call(name[0], counts[name[0]], status)] if status else []
    return made


def with_one_failing(command, text, image=None):
    """Each call of a command and each error, with how the command ends where that call fails so; meanwhile the current folder is what it
    leaves. Its status tells of the device, or the call was interrupted and is repeated."""
    for call, error in itertools.product(calls(command, text, image), ERRORS):
        with over(image):
            ended, lines = traced(command, text, '-e', 'trace=' + call.name,
                                  '-e', 'inject=%s:error=%s:when=%d' % (call.name, error, call.number))
            assert sum('(INJECTED)' in line for line in lines) == 1, (call, error, lines)
            assert ended.returncode == call.status or error == INTERRUPTED, (call, error, ended)
            yield call, error, ended


def fail_each(program, text):
    """How each run ended in which one call fails, and how many were ended by an interrupted call on standard input or output."""
    whole, runs, ended_by_interrupts = undisturbed(program, text), [], 0
    for call, error, ended in with_one_failing([program, 'run'], text):
        runs.append(stopped(program, whole, ended))
        assert ended.returncode in (WELL, call.status), (call, error, ended)
        ended_by_interrupts += error == INTERRUPTED and call.status in STANDARD and ended.returncode != WELL
    return runs, ended_by_interrupts


def fail_openings(program):
    """How many runs there are without a command, over a store, a damaged one and none, in each of which one call fails; and how many of
    them changed its bytes. What is told is told whole or not at all, and no tree is made."""
    with elsewhere():
        subprocess.run([program, 'run'], input=FURTHER, stdout=subprocess.DEVNULL, check=True)
        store = pathlib.Path(STORE).read_bytes()
    count = changed = 0
    for image, word in itertools.product((store, store[:-1], store[1:]), ('check', 'run')):
        with over(image):
            usual = subprocess.run([program, word], input=b'', capture_output=True)
        for call, error, ended in with_one_failing([program, word], b'', image):
            assert ended.returncode in (usual.returncode, call.status), (call, error, ended)
            assert ended.stdout == (usual.stdout if ended.returncode == usual.returncode else b''), (call, error, ended)
            assert os.listdir() == [STORE], os.listdir()
            count += 1
            changed += pathlib.Path(STORE).read_bytes() != image
    return count, changed


def served_without(program, library, text, number):
    """A run in which the allocation of that number fails, none where it is 0. On its standard error it tells how many there are."""
    return subprocess.run([program, 'run'], input=text, capture_output=True, env={'LD_PRELOAD': library, 'FAILING': str(number)})


def allocations(program, library, text):
    """How many allocations the program makes while it serves a script."""
    with elsewhere():
        ended = served_without(program, library, text, 0)
        assert ended.returncode == WELL, ended
        return int(ended.stderr)


def starve_each(program, text, before=None):
    """How each run ended in which one allocation failed: of all that a script takes, or of those that it takes beyond a front of it. Its
    status tells of memory, or of the store or the trees where a call on these needed it, or the run went on without."""
    whole, runs = undisturbed(program, text), []
    with compiled('failing', '-shared', '-fPIC') as library:
        first = 0 if before is None else allocations(program, library, before)
        for number in range(first + 1, allocations(program, library, text) + 1):
            with elsewhere():
                ended = served_without(program, library, text, number)
                run = stopped(program, whole, ended)
                assert run.status in (WELL, NO_MEMORY, NO_STORE, NO_TREES), (number, ended)
                runs.append(run)
    return runs


def kill_often(program, kills):
    """How each run ended that was killed at a random moment, and how many others had ended before. That is on the RAM disk: what a killed
    program leaves is what it wrote, synced or not."""
    text, draw, runs, missed = script(COMMITS), random.Random(1), [], 0
    start = time.monotonic()
    whole = undisturbed(program, text, RAM_DISK)
    longest = time.monotonic() - start
    while len(runs) < kills:
        with elsewhere(RAM_DISK), open('script', 'w+b') as source, open('replies', 'w+b') as out:
            source.write(text)
            source.seek(0)
            child = subprocess.Popen([program, 'run'], stdin=source, stdout=out)
            time.sleep(draw.uniform(0, longest))
            child.send_signal(signal.SIGKILL)
            child.wait()
            out.seek(0)
            run = stopped(program, whole, subprocess.CompletedProcess(child.args, child.returncode, out.read()))
            assert run.beyond <= 1, 'one commit at a time is made'
            if run.status == -signal.SIGKILL:
                runs.append(run)
            else:
                missed += 1
    return runs, missed


@contextlib.contextmanager
def installed(program):
    """The script `covstore` over this program, as if it had just been built, in a folder of its own."""
    with tempfile.TemporaryDirectory() as top:
        out = os.path.join(top, 'crates', 'cov_cli', 'out')
        os.makedirs(out)
        shutil.copy(COVSTORE, top)
        shutil.copy(program, os.path.join(out, 'cov_cli'))
        for name in (os.path.join(top, 'crates.txt'), os.path.join(out, 'cov_cli.sources')):
            open(name, 'w').close()
        yield os.path.join(top, 'covstore')


def is_one_line(errors):
    """Whether the script `covstore` told one line."""
    return re.fullmatch(rb'covstore: [^\n]+\n', errors) is not None


def run_two_at_once(program):
    """How each two runs of the script `covstore` at once ended, and in how many of these one was turned away."""
    runs, away = [], 0
    with installed(program) as covstore:
        for _ in range(PAIRS):
            with elsewhere():
                pair = [subprocess.Popen([covstore, 'run'], stdin=subprocess.PIPE, stdout=subprocess.PIPE, stderr=subprocess.PIPE)
                        for _ in range(2)]
                told = [child.communicate(script(FAILING)) for child in pair]
                statuses = [child.returncode for child in pair]
                assert set(statuses) <= {WELL, SOME_REFUSED, NO_STORE} and statuses != [NO_STORE] * 2, statuses
                assert all(replies == b'' and is_one_line(errors) if status == NO_STORE else errors == b''
                           for status, (replies, errors) in zip(statuses, told)), told
                runs.append(Stopped(WELL, records(program) - sum(acknowledged(replies) for replies, _ in told)))
                away += NO_STORE in statuses
    return runs, away


def misled(program):
    """How many runs there are of the script `covstore` over a folder that another one has locked, over programs that end with each status,
    and over one that can't be built; and how many of them told or left anything else than they are to."""
    runs = []
    with installed(program) as covstore, elsewhere():
        folder = os.open('.', os.O_RDONLY)
        fcntl.flock(folder, fcntl.LOCK_EX)
        for words in WORDS:
            ended = subprocess.run([covstore, *words], input=PLAIN, capture_output=True)
            runs.append((ended.returncode, ended.stdout, is_one_line(ended.stderr), os.listdir()) == (NO_STORE, b'', True, []))
        os.close(folder)
    for status in STATUSES:
        with tempfile.NamedTemporaryFile('w', suffix='.sh') as other:
            other.write('#!/bin/sh\nexit %d\n' % status)
            other.flush()
            os.chmod(other.name, 0o700)
            with installed(other.name) as covstore, elsewhere():
                ended = subprocess.run([covstore, 'run'], input=PLAIN, capture_output=True)
                is_told = is_one_line(ended.stderr) if status in EXPLAINED else ended.stderr == b''
                runs.append((ended.returncode, ended.stdout, is_told) == (status, b'', True))
    with installed(program) as covstore, over(b'kept'):
        os.remove(os.path.join(os.path.dirname(covstore), 'crates', 'cov_cli', 'out', 'cov_cli.sources'))
        ended = subprocess.run([covstore, 'run'], input=PLAIN, capture_output=True, env={'PATH': '/usr/bin:/bin'})
        runs.append((ended.returncode, ended.stdout, pathlib.Path(STORE).read_bytes()) == (NOT_BUILT, b'', b'kept'))
    return len(runs), runs.count(False)


def unsynced(program):
    """How many empty stores there are, with or without a file, and over how many of them the folder isn't synced behind the header, by
    which alone a crash leaves a new file in it."""
    images, wrong = (None, b'', journal.HEADER, journal.EMPTY, bytes(len(journal.EMPTY))), 0
    for image in images:
        with over(image):
            ended, lines = traced([program, 'run'], b'', '-e', 'trace=write,fsync')
            assert ended.returncode == WELL, ended
            header = max(at for at, line in enumerate(lines) if line.startswith('write('))
            wrong += not any(re.match(r'fsync\(\d+<%s>' % re.escape(os.getcwd()), line) for line in lines[header:])
    return len(images), wrong


def make_socket():
    with socket.socket(socket.AF_UNIX) as made:
        made.bind(STORE)


@contextlib.contextmanager
def block_device():
    """The path of a block device whose bytes are all 0, or None where the system lets none be made, as for another user than root."""
    with tempfile.NamedTemporaryFile() as below:
        below.truncate(1 << 20)
        made = shutil.which('losetup') and subprocess.run(['losetup', '--find', '--show', below.name], capture_output=True, text=True)
        if not made or made.returncode != 0:
            yield None
            return
        path = made.stdout.strip()
        try:
            yield path
        finally:
            subprocess.run(['losetup', '--detach', path], check=True)


def seen():
    """What stands in the current folder and in the place of the store's file, with its first bytes if it is a block device."""
    about = os.lstat(STORE)
    front = pathlib.Path(STORE).open('rb').read(64) if stat.S_ISBLK(os.stat(STORE).st_mode) else b''
    return os.listdir(), about.st_mode, about.st_ino, about.st_size, about.st_mtime_ns, front


def take_others(program):
    """How many times each word was tried on what is no regular file in the place of the store's, and how often that didn't end at once with
    the status of the store's file, without a word, and with all as it was; and whether one of these was a block device."""
    with block_device() as block:
        targets = ['.', '/dev/null', '/dev/zero', '/dev/full'] + ([block] if block else [])
        makers = [lambda: os.mkdir(STORE), lambda: os.mkfifo(STORE), make_socket,
                  *(functools.partial(os.symlink, target, STORE) for target in targets)]
        wrong, tried = 0, list(itertools.product(makers, WORDS))
        for make, words in tried:
            with elsewhere():
                make()
                before = seen()
                try:
                    ended = subprocess.run([program, *words], input=PLAIN, capture_output=True, timeout=10)
                    wrong += (ended.returncode, ended.stdout, seen()) != (NO_STORE, b'', before)
                except subprocess.TimeoutExpired:
                    wrong += 1
    return len(tried), wrong, block is not None


def of_runs(name, runs, parts=''):
    """The figure of runs that were stopped."""
    statuses = collections.Counter(run.status for run in runs if run.status >= WELL)
    told = 'of %d; %d kept a command whose reply is missing' % (len(runs), sum(run.beyond > 0 for run in runs)) + parts
    told += ''.join('; %d with status %d' % (count, status) for status, count in sorted(statuses.items()) if len(statuses) > 1)
    return at_most('runs that lost an acknowledged command, ' + name, sum(run.beyond < 0 for run in runs), 0, parts=told)


def figures(program, kills=KILLS):
    commits, swept = script(FAILING), script(SWEPT - 1)
    before = swept[:swept.rindex(b'commit')]
    failed = [('by a failing call of plain use', *fail_each(program, PLAIN)),
              ('by a failing call with options and directories', *fail_each(program, FURTHER)),
              ('by a failing call of commits to one file', *fail_each(program, commits))]
    starved = [('by an allocation that fails in plain use', starve_each(program, PLAIN)),
               ('by an allocation that fails with options and directories', starve_each(program, FURTHER)),
               ('by an allocation that fails in a line with a sweep', starve_each(program, swept, before))]
    opened, changed = fail_openings(program)
    begun, lost = unsynced(program)
    tried, taken, has_block = take_others(program)
    at_once, away = run_two_at_once(program)
    fronts, wrong = misled(program)
    killed, missed = kill_often(program, kills)
    return [*(of_runs(name, runs) for name, runs, _ in failed),
            at_most('runs that an interrupted read or write of standard input or output ended', sum(ended for _, _, ended in failed), 0),
            at_most('runs without a command that changed a store, by a failing call', changed, 0, parts='of %d' % opened),
            at_most('runs that wrote a header and didn\'t sync the folder behind it', lost, 0, parts='of %d' % begun),
            at_most('runs that took for a store what is no regular file', taken, 0,
                    parts='of %d, %s' % (tried, 'a block device too' if has_block else 'but no block device')),
            *(of_runs(name, runs) for name, runs in starved),
            of_runs('by a run at the same time', at_once, '; in %d a run was turned away' % away),
            at_most('runs of `covstore` that told or left anything else than they are to', wrong, 0, parts='of %d' % fronts),
            of_runs('by SIGKILL', killed, '; %d others had ended before' % missed)]


def words():
    parser = argparse.ArgumentParser(description=__doc__)
    parser.add_argument('program', nargs='?', help='the built covstore; it is proved and built if none is given')
    parser.add_argument('--kills', type=int, default=KILLS, help='how many runs are killed; %(default)s if not given')
    return parser.parse_args()


if __name__ == '__main__':
    given = words()
    tell(figures(build([given.program] if given.program else []), given.kills))
