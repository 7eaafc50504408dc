#!/usr/bin/env python3
"""Times the conjunction of 256 random clauses by cov_dd beside BuDDy (Debian's libbdd-dev), in turns in one run."""
from timing import beside, build_crate, compiled, peak_of, ratio, tell

REPETITIONS = 15
TIMES = {'16': 2, '24': 3}  # the most that a window may take, in times of BuDDy's
STARTS = ('20', '16')  # the logarithm of how many nodes BuDDy begins with room for
EVERY = '1'  # after how many conjunctions the table is swept, where it is


def compare(ours, peer, window, start, *words):
    commands = [ours, window, *words], [peer, window, start]
    time, peer_time = beside(REPETITIONS, *commands)
    peak, peer_peak = (min(peak_of(command) for _ in range(REPETITIONS)) for command in commands)
    of = 'window %s, start 2^%s' % (window, start) + (', swept' if words else '')
    return [ratio('to BuDDy, ' + of, 1000 * time, 1000 * peer_time, 'ms', TIMES[window]),
            ratio("peak to BuDDy's, " + of, peak, peer_peak, 'MB', 1 if words else 2)]


def figures(program):
    with compiled('conjunction', '-lbdd') as peer:
        kept = [figure for start in STARTS for window in TIMES for figure in compare(program, peer, window, start)]
        return kept + [figure for window in TIMES for figure in compare(program, peer, window, STARTS[-1], EVERY)]


if __name__ == '__main__':
    tell(figures(build_crate('cov_bench')))
