/* How much stack a call takes: it runs on a painted stack, and the paint that is gone is counted. */
#ifndef BENCH_STACK_H
#define BENCH_STACK_H

#include "timing.h"

/* In bytes, from the caller's frame down. */
size_t stack_of(bench_work work, void *input);

#endif
