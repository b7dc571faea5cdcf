#define _POSIX_C_SOURCE 200809L
#include "timing.h"

#include <time.h>

enum { ROUNDS = 400, ROUND_NS = 400000 };

static volatile uint64_t sink;

static double now_ns(void)
{
    struct timespec t;
    clock_gettime(CLOCK_MONOTONIC, &t);
    return t.tv_sec * 1e9 + t.tv_nsec;
}

static double round_ns(const struct contender *c, uint64_t calls)
{
    uint64_t sum = 0;
    double start = now_ns();
    for (uint64_t i = 0; i < calls; i++)
        sum += c->work(c->input);
    double took = now_ns() - start;
    sink += sum;
    return took;
}

/* So many calls that a round lasts about ROUND_NS: short enough to pass between two interruptions. It warms
 * up too. */
static void calibrate(struct contender *c)
{
    uint64_t calls = 1;
    double took = round_ns(c, calls);
    while (took < ROUND_NS / 4) {
        calls *= 2;
        took = round_ns(c, calls);
    }
    c->calls = (uint64_t)(calls * (ROUND_NS / took)) + 1;
    c->ns = took / calls;
}

void race(struct contender *contenders, size_t n)
{
    for (size_t i = 0; i < n; i++)
        if (contenders[i].work)
            calibrate(&contenders[i]);
    for (int round = 0; round < ROUNDS; round++)
        for (size_t i = 0; i < n; i++) {
            struct contender *c = &contenders[i];
            if (!c->work)
                continue;
            double ns = round_ns(c, c->calls) / c->calls;
            if (ns < c->ns)
                c->ns = ns;
        }
}
