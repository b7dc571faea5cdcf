/* One call again and again, for a profiler: one CALL SAMPLE TIMES. A sample of updates is BYTESxOPERATIONS,
 * one of feeds the length of the pieces. */
#include <stdio.h>
#include <stdlib.h>
#include <string.h>

#include "contenders.h"

static struct sample sample;
static struct frame_input frame;
static struct line_input line;
static struct update_input update;

static int make_values(const char *name)
{
    if (!strcmp(name, "select"))
        select_sample(&sample);
    else if (!strcmp(name, "answer"))
        answer_sample(&sample, 112);
    else if (!strcmp(name, "strings"))
        strings_sample(&sample, 64);
    else if (!strcmp(name, "integers"))
        integers_sample(&sample, 16381);
    else if (!strcmp(name, "numbers"))
        numbers_sample(&sample, 3000);
    else if (!strcmp(name, "records"))
        records_sample(&sample, 300);
    else if (!strcmp(name, "mixed"))
        mixed_sample(&sample, 2000);
    else if (!strcmp(name, "nesting"))
        nesting_sample(&sample, 64, 16);
    else
        return 0;
    return 1;
}

static int make_frame(const char *name)
{
    if (!strcmp(name, "select"))
        select_sample(&sample);
    else if (!strcmp(name, "answer"))
        ok_frame_sample(&sample, 112);
    else
        return 0;
    frame.bytes = &sample;
    frame.record = lak_frame_read(sample.bytes, sample.n).frame;
    return 1;
}

static int make_line(const char *name)
{
    line.bytes = &sample;
    line.piece = (size_t)atol(name);
    ok_frame_sample(&sample, 511);
    return line.piece > 0;
}

static int make_update(const char *name)
{
    size_t bytes, operations;
    if (sscanf(name, "%zux%zu", &bytes, &operations) != 2)
        return 0;
    struct shape shape = shape_of(bytes);
    tuple_sample(&update.tuple, shape);
    list_sample(&update.list, shape, operations);
    return 1;
}

struct call {
    const char *name;
    bench_work work;
    void *input;
    int (*make)(const char *name);
};

int main(int argc, char **argv)
{
    const struct call calls[] = {
        { "values", lak_values, &sample, make_values },
        { "mp_check", msgpuck_values, &sample, make_values },
        { "read", lak_frame_reading, &frame, make_frame },
        { "write", lak_frame_writing, &frame, make_frame },
        { "feed", lak_feeding, &line, make_line },
        { "update", lak_updating, &update, make_update },
        { "undo", lak_undoing, &update, make_update },
        { "press", lak_pressing, &update, make_update },
        { "plain-update", plain_updating, &update, make_update },
        { "plain-undo", plain_undoing, &update, make_update },
        { "plain-press", plain_pressing, &update, make_update },
    };
    if (argc != 4)
        return 2;
    for (size_t i = 0; i < sizeof calls / sizeof calls[0]; i++) {
        const struct call *c = &calls[i];
        if (strcmp(argv[1], c->name) || !c->work || !c->make(argv[2]))
            continue;
        uint64_t sum = 0;
        for (long n = atol(argv[3]); n > 0; n--)
            sum += c->work(c->input);
        printf("%lu\n", (unsigned long)sum);
        return 0;
    }
    return 2;
}
