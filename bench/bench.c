/* The whole benchmark, but for the server's own updates: `bench/run` measures those and hands them over in a
 * file. */
#include <stdio.h>
#include <stdlib.h>
#include <string.h>

#include "contenders.h"
#include "plain_update.h"
#include "stack.h"
#include "updates.h"

enum { KIB = 1024 };

static struct sample sample;
static struct frame_input frame;
static struct line_input line;
static struct update_input update;

/* A comparison of calls that do not do the same would say nothing. */
static void demand(int same, const char *what)
{
    if (!same) {
        fprintf(stderr, "bench: %s: the answers differ\n", what);
        exit(1);
    }
}

/* ---- columns ---- */

static void print_ns(const struct contender *c)
{
    if (!c->work)
        printf(" %9s", "-");
    else
        printf(" %9.*f", c->ns < 1000 ? 1 : 0, c->ns);
}

/* Ours to theirs: below 1, we are ahead. */
static void print_ratio(double ours, double theirs)
{
    if (theirs > 0)
        printf(" %6.2f", ours / theirs);
    else
        printf(" %6s", "-");
}

static void print_against(const struct contender *ours, const struct contender *theirs)
{
    print_ns(theirs);
    print_ratio(ours->ns, theirs->work ? theirs->ns : 0);
}

static double megabytes(size_t bytes, double ns)
{
    return bytes * 1000.0 / ns;
}

/* ---- reading values ---- */

static void values_row(const char *name)
{
    struct contender c[3] = {
        { lak_values, &sample, 0, 0 },
        { msgpuck_values, &sample, 0, 0 },
        { msgpack_values, &sample, 0, 0 },
    };
    for (int i = 0; i < 3; i++)
        demand(!c[i].work || c[i].work(&sample) == sample.n, name);
    race(c, 3);
    printf("%-28s %6zu", name, sample.n);
    print_ns(&c[0]);
    printf(" %8.0f", megabytes(sample.n, c[0].ns));
    print_against(&c[0], &c[1]);
    print_against(&c[0], &c[2]);
    printf("\n");
}

static void values_table(void)
{
    printf("\nReading values: lak_value_read; mp_check gives no meaning and knows no depth; msgpack_unpack "
           "makes a tree\n");
    printf("%-28s %6s %9s %8s %9s %6s %9s %6s\n", "", "bytes", "ns", "MB/s", "mp_check", "ratio", "unpack",
           "ratio");
    select_sample(&sample);
    values_row("a select, as three values");
    answer_sample(&sample, 112);
    values_row("an answer, 112 tuples");
    strings_sample(&sample, 64);
    values_row("64 strings");
    integers_sample(&sample, 16381);
    values_row("16,381 small integers");
    numbers_sample(&sample, 3000);
    values_row("3,000 numbers of 32 bits");
    records_sample(&sample, 300);
    values_row("300 records");
    mixed_sample(&sample, 2000);
    values_row("2,000 mixed values");
    nesting_sample(&sample, 64, 16);
    values_row("64 times 16 deep");
}

/* ---- frames ---- */

static void load_frame(const char *name)
{
    frame.bytes = &sample;
    lak_frame_answer a = lak_frame_read(sample.bytes, sample.n);
    demand(a.number == 0 && a.length == sample.n, name);
    frame.record = a.frame;
}

static void frame_row(const char *name)
{
    load_frame(name);
    struct contender c[3] = {
        { lak_frame_reading, &frame, 0, 0 },
        { msgpuck_values ? msgpuck_frame : NULL, &frame, 0, 0 },
        { lak_frame_writing, &frame, 0, 0 },
    };
    demand(lak_frame_writing(&frame) == sample.n, name);
    race(c, 3);
    printf("%-28s %6zu", name, sample.n);
    print_ns(&c[0]);
    printf(" %8.0f", megabytes(sample.n, c[0].ns));
    print_against(&c[0], &c[1]);
    print_ns(&c[2]);
    printf(" %8.0f\n", megabytes(sample.n, c[2].ns));
}

static void frames_table(void)
{
    printf("\nFrames: lak_frame_read, beside it mp_check over the same bytes, which judges no key; "
           "lak_frame_write\n");
    printf("%-28s %6s %9s %8s %9s %6s %9s %8s\n", "", "bytes", "read ns", "MB/s", "mp_check", "ratio",
           "write ns", "MB/s");
    select_sample(&sample);
    frame_row("a select");
    update_frame_sample(&sample);
    frame_row("an update, a press");
    ok_frame_sample(&sample, 1);
    frame_row("an answer, 1 tuple");
    ok_frame_sample(&sample, 112);
    frame_row("an answer, 112 tuples");
    ok_frame_sample(&sample, 450);
    frame_row("an answer, 450 tuples");
}

/* ---- sessions ---- */

/* A frame of about the greatest length, of which so many bytes come at once. */
static void session_row(const char *name, size_t piece)
{
    load_frame(name);
    line.bytes = &sample;
    line.piece = piece;
    struct contender c[2] = {
        { lak_feeding, &line, 0, 0 },
        { lak_frame_reading, &frame, 0, 0 },
    };
    size_t feeds = (sample.n + piece - 1) / piece;
    demand(lak_feeding(&line) == sample.n, name);
    race(c, 2);
    printf("%-20s %6zu %6zu", name, sample.n, feeds);
    print_ns(&c[0]);
    printf(" %9.1f %9.3f", c[0].ns / feeds, c[0].ns / sample.n);
    print_against(&c[0], &c[1]);
    printf("\n");
}

static void sessions_table(void)
{
    printf("\nSessions: one frame fed to its end by lak_session_feed; beside it lak_frame_read of the frame "
           "whole\n");
    printf("%-20s %6s %6s %9s %9s %9s %9s %6s\n", "", "bytes", "feeds", "ns", "ns/feed", "ns/byte", "read ns",
           "ratio");
    ok_frame_sample(&sample, 511);
    session_row("pieces of 1", 1);
    session_row("pieces of 40", 40);
    session_row("pieces of 1,500", 1500);
    session_row("whole", sample.n);
}

/* ---- updates ---- */

static void load_update(size_t bytes, size_t operations)
{
    struct shape shape = shape_of(bytes);
    tuple_sample(&update.tuple, shape);
    list_sample(&update.list, shape, operations);
}

/* Both write the same bytes. */
static void check_updates(void)
{
    static uint8_t plain[SAMPLE_ROOM];
    const struct sample *t = &update.tuple, *l = &update.list;
    lak_answer a = lak_update(t->bytes, t->n, l->bytes, l->n, INDEX_BASE, update.out, sizeof update.out);
    struct plain_answer p = plain_update(t->bytes, t->n, l->bytes, l->n, INDEX_BASE, plain, sizeof plain);
    demand(a.number == 0 && p.number == 0 && a.length == p.length && !memcmp(update.out, plain, p.length),
           "update");
    a = lak_undo(t->bytes, t->n, l->bytes, l->n, INDEX_BASE, update.out, sizeof update.out);
    p = plain_undo(t->bytes, t->n, l->bytes, l->n, INDEX_BASE, plain, sizeof plain);
    demand(a.number == p.number && a.length == p.length && !memcmp(update.out, plain, p.length), "undo");
}

/* A press writes what plain C's writes, and what the update call and the undo call write. */
static void check_press(void)
{
    static uint8_t tuple[SAMPLE_ROOM], list[SAMPLE_ROOM];
    const struct sample *t = &update.tuple, *l = &update.list;
    struct plain_press_answer p = plain_press(t->bytes, t->n, l->bytes, l->n, INDEX_BASE, tuple, sizeof tuple, list,
                                              sizeof list);
    lak_press_answer a = lak_press(t->bytes, t->n, l->bytes, l->n, INDEX_BASE, update.out, sizeof update.out,
                                   update.undo, sizeof update.undo);
    demand(a.number == p.number && a.length == p.length && a.undo_length == p.undo_length, "press");
    demand(!memcmp(update.out, tuple, p.length) && !memcmp(update.undo, list, p.undo_length), "press");
    if (a.number != LAK_OK)
        return;
    uint64_t both = lak_updating_and_undoing(&update);
    demand(both == p.length + p.undo_length && !memcmp(update.out, tuple, p.length) &&
               !memcmp(update.undo, list, p.undo_length),
           "press in one");
}

static void update_row(const struct server_times *server)
{
    struct contender c[4] = {
        { lak_updating, &update, 0, 0 },
        { plain_updating, &update, 0, 0 },
        { lak_undoing, &update, 0, 0 },
        { plain_undoing, &update, 0, 0 },
    };
    check_updates();
    race(c, 4);
    printf("%6zu %4zu %6zu", update.tuple.n, server->operations, update.list.n);
    print_ns(&c[0]);
    print_against(&c[0], &c[1]);
    if (server->update > 0)
        printf(" %9.0f", server->update);
    else
        printf(" %9s", "-");
    print_ratio(c[0].ns, server->update);
    if (server->made > 0)
        printf(" %9.0f", server->made);
    else
        printf(" %9s", "-");
    print_ratio(c[0].ns, server->made);
    print_ns(&c[2]);
    print_against(&c[2], &c[3]);
    printf("\n");
}

static void updates_table(const char *server_file)
{
    struct server_times rows[UPDATE_ROWS];
    update_rows(rows);
    if (server_file)
        read_server_times(server_file, rows);
    printf("\nUpdates: lak_update and lak_undo, against plain C (bench/plain_update.c) and the server's "
           "box_tuple_update\n");
    printf("(a tuple that it checked before; `and new`: made of the same bytes first)\n");
    printf("%6s %4s %6s %9s %9s %6s %9s %6s %9s %6s %9s %9s %6s\n", "tuple", "ops", "list", "update ns",
           "plain C", "ratio", "server", "ratio", "and new", "ratio", "undo ns", "plain C", "ratio");
    for (size_t i = 0; i < UPDATE_ROWS; i++) {
        load_update(rows[i].bytes, rows[i].operations);
        update_row(&rows[i]);
    }
}

/* ---- presses ---- */

static void press_row(size_t operations)
{
    struct contender c[4] = {
        { lak_pressing, &update, 0, 0 },
        { plain_pressing, &update, 0, 0 },
        { lak_updating, &update, 0, 0 },
        { lak_updating_and_undoing, &update, 0, 0 },
    };
    check_press();
    race(c, 4);
    printf("%6zu %4zu", update.tuple.n, operations);
    print_ns(&c[0]);
    for (int i = 1; i < 4; i++)
        print_against(&c[0], &c[i]);
    printf("\n");
}

static void presses_table(void)
{
    struct server_times rows[UPDATE_ROWS];
    update_rows(rows);
    printf("\nPresses: lak_press, against plain C, against lak_update alone, and against both calls in turn\n");
    printf("%6s %4s %9s %9s %6s %9s %6s %9s %6s\n", "tuple", "ops", "press ns", "plain C", "ratio", "update", "ratio",
           "and undo", "ratio");
    for (size_t i = 0; i < UPDATE_ROWS; i++) {
        load_update(rows[i].bytes, rows[i].operations);
        press_row(rows[i].operations);
    }
}

/* ---- growth ---- */

static double alone(bench_work work, void *input)
{
    struct contender c = { work, input, 0, 0 };
    race(&c, 1);
    return c.ns;
}

static void growth_cell(size_t units, double ns)
{
    printf(" %7zu: %8.3f", units, ns / units);
}

static void values_growth(const char *name, void (*make)(struct sample *, size_t), size_t first)
{
    printf("%-40s", name);
    for (size_t times = 1; times <= 16; times *= 4) {
        make(&sample, first * times);
        growth_cell(sample.n, alone(lak_values, &sample));
    }
    printf("\n");
}

static void frames_growth(const char *name, bench_work work)
{
    printf("%-40s", name);
    for (size_t times = 1; times <= 16; times *= 4) {
        ok_frame_sample(&sample, 28 * times);
        load_frame(name);
        growth_cell(sample.n, alone(work, &frame));
    }
    printf("\n");
}

static void line_growth(const char *name, size_t piece)
{
    printf("%-40s", name);
    for (size_t times = 1; times <= 16; times *= 4) {
        ok_frame_sample(&sample, 28 * times);
        line.bytes = &sample;
        line.piece = piece;
        growth_cell(sample.n, alone(lak_feeding, &line));
    }
    printf("\n");
}

static void tuple_growth(const char *name, bench_work work, size_t operations)
{
    printf("%-40s", name);
    for (size_t times = 1; times <= 16; times *= 4) {
        load_update(KIB * times, operations);
        growth_cell(update.tuple.n, alone(work, &update));
    }
    printf("\n");
}

static void list_growth(const char *name, bench_work work)
{
    printf("%-40s", name);
    for (size_t times = 1; times <= 16; times *= 4) {
        load_update(4 * KIB, 4 * times);
        growth_cell(4 * times, alone(work, &update));
    }
    printf("\n");
}

static void growth_table(void)
{
    printf("\nGrowth: ns per byte (of the last three: per operation) at 1, 4 and 16 times the size\n");
    values_growth("values: tuples of an answer", answer_sample, 30);
    values_growth("values: strings", strings_sample, 16);
    values_growth("values: small integers", integers_sample, 4000);
    frames_growth("frames read: an answer", lak_frame_reading);
    frames_growth("frames written: an answer", lak_frame_writing);
    line_growth("frames fed in pieces of 1: an answer", 1);
    line_growth("frames fed in pieces of 40: an answer", 40);
    tuple_growth("update, 1 operation, by tuple", lak_updating, 1);
    tuple_growth("update, 16 operations, by tuple", lak_updating, 16);
    tuple_growth("undo, 16 operations, by tuple", lak_undoing, 16);
    tuple_growth("press, 16 operations, by tuple", lak_pressing, 16);
    list_growth("update, 4 KB, by operations", lak_updating);
    list_growth("undo, 4 KB, by operations", lak_undoing);
    list_growth("press, 4 KB, by operations", lak_pressing);
}

/* ---- stack ---- */

static void stack_row(const char *name, const char *on, bench_work work, void *input)
{
    printf("%-18s %7zu  %s\n", name, stack_of(work, input), on);
}

/* The three calls on the tuple and list that are loaded. */
static void update_stack_rows(const char *on)
{
    check_updates();
    check_press();
    stack_row("lak_update", on, lak_updating, &update);
    stack_row("lak_undo", "the same", lak_undoing, &update);
    stack_row("lak_press", "the same", lak_pressing, &update);
}

static void stack_table(void)
{
    printf("\nStack of a call in bytes, with its caller's answer\n");
    nesting_sample(&sample, 2, 16);
    stack_row("lak_value_read", "16 deep", lak_values, &sample);
    deep_frame_sample(&sample);
    load_frame("a deep frame");
    stack_row("lak_frame_read", "a value 15 deep", lak_frame_reading, &frame);
    stack_row("lak_frame_write", "a value 15 deep", lak_frame_writing, &frame);
    line.bytes = &sample;
    line.piece = sample.n - 1;
    stack_row("lak_session_open", "a carry buffer of 60,009 bytes", lak_opening, &line);
    stack_row("lak_session_reset", "no input", lak_resetting, &line);
    stack_row("lak_session_feed", "a value 15 deep, its last byte in a second piece", lak_feeding, &line);
    load_update(20, 1);
    update_stack_rows("21 bytes, 1 operation");
    load_update(16000, 64);
    update_stack_rows("16 KB, 64 operations");
    deep_tuple_sample(&update.tuple, 16 * KIB);
    deep_list_sample(&update.list, 64);
    update_stack_rows("16 KB, 64 operations, fields 12 deep");
    long_tuple_sample(&update.tuple, 400);
    splices_sample(&update.list, 64);
    update_stack_rows("a string of 400 bytes, spliced 64 times");
    long_tuple_sample(&update.tuple, KIB);
    update_stack_rows("a string of 1 KB, spliced 64 times: the undo list is refused with 17");
}

int main(int argc, char **argv)
{
    values_table();
    frames_table();
    sessions_table();
    updates_table(argc > 1 ? argv[1] : NULL);
    presses_table();
    growth_table();
    stack_table();
    return 0;
}
