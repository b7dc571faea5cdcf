/* Nanoseconds per call, contenders side by side. */
#ifndef BENCH_TIMING_H
#define BENCH_TIMING_H

#include <stddef.h>
#include <stdint.h>

/* What is timed: it answers a number that depends on its work, so that no compiler leaves the work out. */
typedef uint64_t (*bench_work)(void *input);

struct contender {
    bench_work work; /* NULL: not there in this build */
    void *input;
    double ns;      /* the answer: per call, the least of the rounds */
    uint64_t calls; /* of one round */
};

/* Times all of them, turn by turn, so that a busy moment of the machine hits each alike. */
void race(struct contender *contenders, size_t n);

#endif
