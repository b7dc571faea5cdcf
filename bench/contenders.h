/* What is timed: each library's call on the same bytes. */
#ifndef BENCH_CONTENDERS_H
#define BENCH_CONTENDERS_H

#include "laksubinat.h"
#include "samples.h"
#include "timing.h"

/* Values, one after the other to the end of a sample: how many bytes were read. */
uint64_t lak_values(void *sample);
/* NULL where the library was not there to build with. */
extern const bench_work msgpuck_values, msgpack_values;

/* A frame, and the record that reading it gave. */
struct frame_input {
    struct sample *bytes;
    lak_frame record;
    uint8_t out[SAMPLE_ROOM];
};
uint64_t lak_frame_reading(void *frame_input);
uint64_t lak_frame_writing(void *frame_input);
/* The same bytes as values: what a reader that only checks them would take. */
uint64_t msgpuck_frame(void *frame_input);

/* A line: its bytes, and how many come at once. */
struct line_input {
    struct sample *bytes;
    size_t piece;
    uint8_t carry[LAK_CARRY_ROOM];
};
/* Fed to its end: the length of the frames answered. */
uint64_t lak_feeding(void *line_input);
uint64_t lak_opening(void *line_input);
uint64_t lak_resetting(void *line_input);

/* A tuple and a list of operations on it. */
struct update_input {
    struct sample tuple, list;
    uint8_t out[SAMPLE_ROOM], undo[SAMPLE_ROOM];
};
uint64_t lak_updating(void *update_input);
uint64_t lak_undoing(void *update_input);
uint64_t lak_pressing(void *update_input);
/* What a press is without that call: an update, then the undo list of the same. */
uint64_t lak_updating_and_undoing(void *update_input);
uint64_t plain_updating(void *update_input);
uint64_t plain_undoing(void *update_input);
uint64_t plain_pressing(void *update_input);

#endif
