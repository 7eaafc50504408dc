#!/usr/bin/env python3
"""Times `covstore run` on 100 MB of comment lines beside sed, which drops them, in one run."""
import os
import subprocess
import tempfile
import time

from timing import build, elsewhere, ratio, tell

LINE = b'#' + b'x' * 78 + b'\n'
REPETITIONS = 5


def seconds(command, path):
    environment = dict(os.environ, LC_ALL='C')
    with open(path, 'rb') as script:
        start = time.perf_counter()
        subprocess.run(command, stdin=script, stdout=subprocess.DEVNULL, env=environment, check=True)
        return time.perf_counter() - start


def figures(program):
    store = [program, 'run']
    sed = ['sed', '-n', '/^#/!p']
    with elsewhere(), tempfile.NamedTemporaryFile() as script:
        for _ in range(100):
            script.write(LINE * 12500)
        script.flush()
        rounds = [(seconds(store, script.name), seconds(sed, script.name)) for _ in range(REPETITIONS)]
    ours, theirs = (sorted(times)[REPETITIONS // 2] for times in zip(*rounds))
    return [ratio('100 MB of comments, to sed', ours, theirs, 's', 1)]


if __name__ == '__main__':
    tell(figures(build()))
