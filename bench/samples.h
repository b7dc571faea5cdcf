/* The bytes that the benchmark works on. All are made here, the same on each run. */
#ifndef BENCH_SAMPLES_H
#define BENCH_SAMPLES_H

#include <stddef.h>
#include <stdint.h>

enum { SAMPLE_ROOM = 80000 };

struct sample {
    size_t n;
    uint8_t bytes[SAMPLE_ROOM];
};

/* Values, one after the other. */
void select_sample(struct sample *s);                    /* the 32 bytes of a select: size, header, body */
void answer_sample(struct sample *s, size_t tuples);     /* an array of tuples of about 130 bytes */
void strings_sample(struct sample *s, size_t strings);   /* an array of strings of 253 bytes */
void integers_sample(struct sample *s, size_t integers); /* an array of integers of one byte */
void numbers_sample(struct sample *s, size_t numbers);   /* an array of numbers of 32 bits */
void records_sample(struct sample *s, size_t records);   /* an array of maps of about 60 bytes, by names */
void mixed_sample(struct sample *s, size_t values);      /* an array of values of all kinds, in no order */
void nesting_sample(struct sample *s, size_t items,
                    size_t depth); /* an array of items, as deep as that in all */

/* Whole frames. */
void ok_frame_sample(struct sample *s, size_t tuples); /* an answer with that array as its data */
void update_frame_sample(struct sample *s);            /* a press: one bit of a record turned round */
void deep_frame_sample(struct sample *s);              /* with a value as deep as a frame's may be */

/* Tuples and lists of operations. Fields are numbered from 1, as the server's own call numbers them. */
enum { INDEX_BASE = 1 };
struct shape {
    size_t integers, strings; /* fields: first the integers, then the strings */
    size_t string_length;
};
struct shape shape_of(size_t bytes); /* of a tuple of about so many bytes */
void tuple_sample(struct sample *s, struct shape shape);
void list_sample(struct sample *s, struct shape shape, size_t operations);
void deep_tuple_sample(struct sample *s, size_t bytes);     /* with a field as deep as a field may be */
void deep_list_sample(struct sample *s, size_t operations); /* its arguments as deep as that too */
void long_tuple_sample(struct sample *s, size_t bytes);     /* of one string */
void splices_sample(struct sample *s, size_t operations);   /* of that string, which stays as long */

#endif
