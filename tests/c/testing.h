/* Help for the programs of this folder: facts counted, bytes from hexadecimal text. */
#ifndef TESTING_H
#define TESTING_H

#include <stdio.h>
#include <string.h>

#include "laksubinat.h"

/* A fact that C and C++ check while compiling. */
#define HOLDS(name, fact) typedef char holds_##name[(fact) ? 1 : -1]

typedef struct {
    uint8_t at[70000];
    size_t n;
} bytes;

static int passed, failed;

static void expect(bool holds, const char *call, const char *what)
{
    if (holds)
        passed++;
    else {
        failed++;
        printf("FAILED: %s: %s\n", call, what);
    }
}

/* The bytes of pairs of hexadecimal digits with gaps. */
static void hex(bytes *b, const char *text)
{
    unsigned byte;
    int used;
    b->n = 0;
    while (sscanf(text, "%2x%n", &byte, &used) == 1) {
        b->at[b->n++] = (uint8_t)byte;
        text += used;
    }
}

/* Initializers of a place. */
/* clang-format off */
#define NONE {false, 0}
#define AT(n) {true, n}
/* clang-format on */

static bool same_number(lak_number a, lak_number b)
{
    return a.present == b.present && a.value == b.value;
}

static bool no_number(lak_number n)
{
    return !n.present && n.value == 0;
}

static bool no_place(lak_place p)
{
    return !p.present && p.start == 0 && p.length == 0;
}

/* Field by field, since the bytes between fields may be anything. */
static bool is_empty(lak_frame f)
{
    return f.code == 0 && no_number(f.sync) && no_number(f.schema_version) && no_number(f.space) &&
           no_number(f.index) && no_number(f.limit) && no_number(f.offset) && no_number(f.iterator) &&
           no_number(f.index_base) && no_place(f.key) && no_place(f.tuple) && no_place(f.function) &&
           no_place(f.user) && no_place(f.expression) && no_place(f.ops) && no_place(f.data) && no_place(f.error);
}

#endif
