#!/usr/bin/env python3
"""Times `Table::sweep` of cov_dd over a table of some two million entries, nearly all of which stay, beside the conjunctions that made
them."""
from timing import build_crate, no_limit, peak_of, ratio, tell, told

WINDOW, REPETITIONS, ONCE, OFTEN = '26', 5, 1, 11


def runs(program):
    """Runs that make the table and sweep it never, once and often, in turns, with what they print."""
    for _ in range(REPETITIONS):
        yield [told(program, WINDOW, '0', str(times)) for times in (0, ONCE, OFTEN)]


def figures(program):
    rounds = list(zip(*runs(program)))
    made, left, still = ({printed for _, printed in column} for column in rounds)
    assert len(made) == len(left) == 1 and left == still, 'each sweep leaves the same'
    (entries, choice), (kept, same) = (printed.pop().split() for printed in (made, left))
    assert choice == same and int(entries) > 1000000, 'the conjunction keeps its first choice'
    making, once, often = (min(clock.processor for clock, _ in column) for column in rounds)
    swept, plain = (peak_of([program, WINDOW, '0', str(times)]) for times in (ONCE, 0))
    return [no_limit('entries', int(entries)), no_limit('entries that stay', int(kept)),
            ratio('a sweep to what made them', (often - once) / (OFTEN - ONCE), making, 's', 1),
            ratio('peak, a sweep to none', swept, plain, 'MB')]


if __name__ == '__main__':
    tell(figures(build_crate('cov_bench')))
