#include "stack.h"

#include <stdint.h>
#include <string.h>
#include <ucontext.h>

enum { STACK = 1 << 20, PAINT = 0xa5 };

static uint8_t stack[STACK] __attribute__((aligned(4096)));
static ucontext_t here, there;
static bench_work running;
static void *running_on;
static volatile uint64_t kept;
static uint8_t *top;

static void enter(void)
{
    top = __builtin_frame_address(0);
    kept += running(running_on);
}

size_t stack_of(bench_work work, void *input)
{
    running = work;
    running_on = input;
    memset(stack, PAINT, STACK);
    getcontext(&there);
    there.uc_stack.ss_sp = stack;
    there.uc_stack.ss_size = STACK;
    there.uc_link = &here;
    makecontext(&there, enter, 0);
    swapcontext(&here, &there);
    size_t untouched = 0;
    while (untouched < STACK && stack[untouched] == PAINT)
        untouched++;
    return (size_t)(top - stack) - untouched;
}
