/* conjunction WINDOW LOG: conjoins with BuDDy the clauses that crates/cov_bench conjoins with cov_dd, and prints the same number.
 * BuDDy begins with room for 2^LOG nodes and an eighth of that in each cache. */
#include <bdd.h>
#include <stdint.h>
#include <stdio.h>
#include <stdlib.h>

enum { OPTIONS = 64, CLAUSES = 256 };

static uint64_t state = 7;

static unsigned below(unsigned bound)
{
    state = state * 6364136223846793005u + 1442695040888963407u;
    return (state >> 33) % bound;
}

static bdd literal(unsigned option, unsigned on)
{
    return on ? bdd_ithvar(option) : bdd_nithvar(option);
}

/* Three options of a window, and at least one of them on: the choice with all options on meets each clause. */
static bdd clause(unsigned window)
{
    unsigned base = below(OPTIONS - window + 1), first = below(window);
    unsigned second = 1 + below(window - 1), third = 1 + below(window - 2);
    third += third >= second;
    unsigned signs = 1 + below(7);
    bdd two = bdd_addref(bdd_or(literal(base + first, signs & 1), literal(base + (first + second) % window, signs >> 1 & 1)));
    bdd three = bdd_addref(bdd_or(two, literal(base + (first + third) % window, signs >> 2 & 1)));
    bdd_delref(two);
    return three;
}

int main(int argc, char **argv)
{
    unsigned window = argc == 3 ? atoi(argv[1]) : 0, first = argc == 3 ? atoi(argv[2]) : 0;
    if (window < 3 || window > OPTIONS || first < 10 || first > 24 || bdd_init(1 << first, 1 << (first - 3)) < 0)
        return 2;
    bdd_setvarnum(OPTIONS);
    bdd_gbc_hook(NULL);
    bdd_setmaxincrease(1 << 22);
    bdd_setcacheratio(8);
    bdd all = bddtrue;
    for (int i = 0; i < CLAUSES; i++) {
        bdd one = clause(window), more = bdd_addref(bdd_and(all, one));
        bdd_delref(one);
        bdd_delref(all);
        all = more;
    }
    uint64_t least = 0;
    for (bdd node = all; node > bddtrue;) {
        int on = bdd_low(node) == bddfalse;
        least |= (uint64_t)on << bdd_var(node);
        node = on ? bdd_high(node) : bdd_low(node);
    }
    printf("%llu\n", (unsigned long long)least);
    return 0;
}
