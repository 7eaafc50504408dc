"""What benches share: they run `covstore run` on a script, or another program, and tell its time or count its instructions, or ask a
run one line after another; and what they measured they give as figures with limits."""
import contextlib
import os
import pathlib
import re
import subprocess
import sys
import tempfile
import time
from typing import NamedTuple, Optional

TOP = os.path.dirname(os.path.dirname(os.path.abspath(__file__)))
COVSTORE = os.path.join(TOP, 'covstore')
RAM_DISK = '/dev/shm'


class Figure(NamedTuple):
    """What was measured, in a unit, or of two things their ratio, which has none. The value is None where it couldn't be measured, the
    limit is empty where there is none, and the parts say what the value comes from."""
    name: str
    value: Optional[float]
    unit: str
    limit: str
    met: bool
    parts: str = ''


def no_limit(name, value, unit=''):
    return Figure(name, value, unit, '', True)


def at_most(name, value, limit, unit='', parts=''):
    return Figure(name, value, unit, 'at most %g' % limit, value <= limit, parts)


def at_least(name, value, limit, unit='', parts=''):
    return Figure(name, value, unit, 'at least %g' % limit, value >= limit, parts)


def ratio(name, value, other, unit, limit=None):
    """The ratio of a value to another in the same unit."""
    parts = '%s to %s' % (in_unit(value), in_unit(other, unit))
    if limit is None:
        return no_limit(name, value / other)._replace(parts=parts)
    return at_most(name, value / other, limit, parts=parts)


def in_unit(value, unit=''):
    return '{:{}} {}'.format(value, ',.0f' if abs(value) >= 100 else '.3g', unit).strip()


def spelt(figure):
    """The value of a figure in its unit, and its parts."""
    value = '' if figure.value is None else in_unit(figure.value, figure.unit)
    return value + (' (%s)' % figure.parts if figure.parts else '')


def row(*cells):
    """A row of a table in Markdown."""
    return '| %s |' % ' | '.join(cells)


def whether_met(figure):
    """The cell that says whether the limit of a figure is met."""
    return '' if figure.limit == '' else 'yes' if figure.met else 'no'


def tell(figures):
    """Prints figures as rows of a table."""
    for figure in figures:
        print(row(figure.name, spelt(figure), figure.limit, whether_met(figure)))


def build(words=tuple(sys.argv[1:])):
    """The built program: the first of the script's arguments, or else the one here, which is proved and built if that isn't done."""
    if words:
        return os.path.abspath(words[0])
    with elsewhere():
        subprocess.run([COVSTORE, 'run'], stdin=subprocess.DEVNULL, check=True)
    return built_in(os.path.join(TOP, 'crates'), 'cov_cli')


def build_crate(name):
    """As `build`, the program of the crate of that name."""
    if len(sys.argv) > 1:
        return os.path.abspath(sys.argv[1])
    crates = os.path.join(TOP, 'crates')
    subprocess.run(['rt', 'run'], cwd=os.path.join(crates, name), stdout=subprocess.DEVNULL, stderr=subprocess.DEVNULL, check=True)
    return built_in(crates, name)


def built_in(crates, name):
    """Where the program of a crate stands once it is built."""
    return os.path.join(crates, name, 'out', name)


@contextlib.contextmanager
def compiled(name, *flags):
    """The program of a source in C that stands here, which is removed at the end."""
    with tempfile.TemporaryDirectory() as folder:
        program = os.path.join(folder, name)
        source = os.path.join(TOP, 'bench', name + '.c')
        subprocess.run(['gcc', '-O2', '-o', program, source, *flags], check=True)
        yield program


def as_script(lines, source):
    source.write(''.join(line + '\n' for line in lines).encode())
    source.seek(0)


class Clock:
    """What the commands take that it ran: seconds elapsed and of the processor."""

    def __init__(self):
        self.elapsed = self.processor = 0

    def run(self, *command, source=None, out=None, statuses=(0,)):
        """Runs a command that ends with one of these statuses, with another file than this script's as its input or output; the status."""
        files = [(os.POSIX_SPAWN_DUP2, file.fileno(), place) for place, file in enumerate((source, out)) if file]
        start = time.perf_counter()
        child = os.posix_spawnp(command[0], command, os.environ, file_actions=files)
        _, status, usage = os.wait4(child, 0)
        self.elapsed += time.perf_counter() - start
        self.processor += usage.ru_utime + usage.ru_stime
        ended = os.waitstatus_to_exitcode(status)
        assert ended in statuses, '%s ends with %d' % (command[0], ended)
        return ended


def told(*command):
    """The clock of a command that ends well, and what it printed."""
    clock = Clock()
    with tempfile.TemporaryFile() as out:
        clock.run(*command, out=out)
        out.seek(0)
        return clock, out.read()


def beside(repetitions, ours, peer):
    """The least processor seconds of two commands that print the same, in turns."""
    rounds = [(told(*ours), told(*peer)) for _ in range(repetitions)]
    assert len({printed for pair in rounds for _, printed in pair}) == 1, 'they print the same'
    return (min(clock.processor for clock, _ in runs) for runs in zip(*rounds))


def clocked(lines, program):
    """The clock and the output of a run on these lines, all accepted, in the current folder, which keeps what it stores."""
    clock = Clock()
    with tempfile.TemporaryFile() as source, tempfile.TemporaryFile() as out:
        as_script(lines, source)
        clock.run(program, 'run', source=source, out=out)
        out.seek(0)
        return clock, out.read()


def served(lines, program):
    """The processor seconds and the output of a run on these lines, all accepted."""
    with elsewhere():
        clock, out = clocked(lines, program)
    return clock.processor, out


def megabytes(kibibytes):
    """Memory, which the system tells in units of 1,024 bytes, in millions of bytes."""
    return kibibytes * 1024 / 1e6


def time_and_peak(command, source=None):
    """The seconds elapsed of a command and its peak of memory in MB, as Debian's `time` tells them. What os.wait4 tells of memory is
    never less than what this script had when it began the command."""
    with tempfile.NamedTemporaryFile() as told:
        command = ['/usr/bin/time', '--format=%e %M', '--output=' + told.name, *command]
        subprocess.run(command, stdin=source, stdout=subprocess.DEVNULL, check=True)
        elapsed, peak = told.read().split()
        return float(elapsed), megabytes(int(peak))


def peak_of(command, source=None):
    """The peak of memory of a command in MB."""
    return time_and_peak(command, source)[1]


def peak_served(lines, program):
    """The peak of memory in MB of a run on these lines, all accepted."""
    with elsewhere(), tempfile.TemporaryFile() as source:
        as_script(lines, source)
        return peak_of([program, 'run'], source)


def least(rounds):
    """Each kind of time with the least of each clock over the rounds, in seconds."""
    for kind in ('elapsed', 'processor'):
        yield kind, [min(getattr(clock, kind) for clock in clocks) for clocks in zip(*rounds)]


def each_beside(name, rounds, count, limits):
    """The ratio of each kind of time to a peer's, with the limits by kind, from the clocks of a run, of one that does a thing `count`
    times more, and of a peer that does it `count` times."""
    for kind, (once, often, others) in least(rounds):
        yield ratio('%s, %s' % (name, kind), 1000 * (often - once) / count, 1000 * others / count, 'ms', limits.get(kind))


@contextlib.contextmanager
def elsewhere(place=None):
    """Meanwhile the current folder is a new one in a place, or where temporary files are, which is removed with all in it."""
    with tempfile.TemporaryDirectory(dir=place) as folder, contextlib.chdir(folder):
        yield


def tree(top):
    """The paths below a folder, each with a file's bytes, or None for a folder."""
    paths = pathlib.Path(top).rglob('*')
    return {os.fsencode(path.relative_to(top)): None if path.is_dir() else path.read_bytes() for path in paths}


@contextlib.contextmanager
def started(program):
    """A run that is asked one line after another; at the end it has refused none."""
    with elsewhere(), subprocess.Popen([program, 'run'], stdin=subprocess.PIPE, stdout=subprocess.PIPE) as child:
        yield child
        child.stdin.close()
        assert child.wait() == 0


def ask(child, line):
    """The processor seconds that a run takes for a line, which is accepted."""
    clock = (~child.pid << 3) | 2  # the clock of another process, as clock_getcpuclockid gives it
    start = time.clock_gettime_ns(clock)
    child.stdin.write(line.encode() + b'\n')
    child.stdin.flush()
    first, _, count = child.stdout.readline().partition(b' ')
    for _ in range(int(count) if count.strip().isdigit() else 0):
        child.stdout.readline()
    taken = time.clock_gettime_ns(clock) - start
    assert first.strip() == b'ok'
    return taken / 1e9


def peak(child):
    """The peak of a run's memory so far, in MB."""
    with open('/proc/%d/status' % child.pid) as status:
        return megabytes(next(int(line.split()[1]) for line in status if line.startswith('VmHWM:')))


@contextlib.contextmanager
def counts_of(command, source=None):
    """Where Debian's valgrind puts what it counts of a command that ends well."""
    with tempfile.NamedTemporaryFile() as counts:
        command = ['valgrind', '--quiet', '--tool=callgrind', '--callgrind-out-file=' + counts.name, *command]
        with elsewhere():
            subprocess.run(command, stdin=source, stdout=subprocess.DEVNULL, check=True)
        yield counts.name


def inclusive(command, source=None):
    """The instructions of a command that ends well, and what tells those within the function of a name, as Debian's valgrind counts
    them."""
    with counts_of(command, source) as counts:
        command = ['callgrind_annotate', '--inclusive=yes', '--threshold=100', counts]
        told = subprocess.run(command, stdout=subprocess.PIPE, check=True, text=True).stdout
    rows = [(int(count.replace(',', '')), of) for count, of in re.findall(r'^\s*([\d,]+) \([^)]*\)\s+(.*)$', told, re.M)]
    total = next(count for count, of in rows if of == 'PROGRAM TOTALS')
    return total, lambda name: max((count for count, of in rows if re.search(r'\b%s\b' % name, of)), default=0)


def instructions(command, source=None, name=None):
    """The instructions of a command, and those within the function of a name, if one is given."""
    total, within = inclusive(command, source)
    return total, within(name) if name else 0


def calls(command, source=None):
    """How often each function of a command that ends well calls each other one, by the names of both."""
    names, made, caller, callee = {}, {}, '', ''
    with counts_of(command, source) as counts, open(counts) as told:
        for line in told:
            kind, _, rest = line.strip().partition('=')
            if kind in ('fn', 'cfn'):
                number, _, name = rest.partition(' ')
                name = names.setdefault(number, name)
                caller, callee = (name, callee) if kind == 'fn' else (caller, name)
            elif kind == 'calls':
                made[caller, callee] = made.get((caller, callee), 0) + int(rest.split()[0])
    return made


def counted(lines, program, name=None):
    """The instructions of a run on these lines, all accepted, and those within the function of a name."""
    with tempfile.TemporaryFile() as source:
        as_script(lines, source)
        return instructions([program, 'run'], source, name)
