#include "samples.h"

#include <string.h>

static void put(struct sample *s, const void *bytes, size_t n)
{
    memcpy(s->bytes + s->n, bytes, n);
    s->n += n;
}

static void put_byte(struct sample *s, unsigned b)
{
    uint8_t byte = (uint8_t)b;
    put(s, &byte, 1);
}

/* A first byte and the low bytes of a number, the highest of them first. */
static void put_tagged(struct sample *s, unsigned tag, uint64_t n, size_t width)
{
    put_byte(s, tag);
    while (width-- > 0)
        put_byte(s, (unsigned)(n >> (8 * width)) & 0xff);
}

static void put_unsigned(struct sample *s, uint64_t n)
{
    if (n < 128)
        put_byte(s, (unsigned)n);
    else if (n < 0x100)
        put_tagged(s, 0xcc, n, 1);
    else if (n < 0x10000)
        put_tagged(s, 0xcd, n, 2);
    else if (n < 0x100000000)
        put_tagged(s, 0xce, n, 4);
    else
        put_tagged(s, 0xcf, n, 8);
}

static void put_array(struct sample *s, size_t n)
{
    if (n < 16)
        put_byte(s, 0x90 + (unsigned)n);
    else
        put_tagged(s, 0xdc, n, 2);
}

/* A string of n letters. */
static void put_letters(struct sample *s, size_t n)
{
    if (n < 32)
        put_byte(s, 0xa0 + (unsigned)n);
    else if (n < 0x100)
        put_tagged(s, 0xd9, n, 1);
    else
        put_tagged(s, 0xda, n, 2);
    for (size_t i = 0; i < n; i++)
        put_byte(s, 'a' + (unsigned)(i % 26));
}

void select_sample(struct sample *s)
{
    static const uint8_t select[32] = {
        0xce, 0x00, 0x00, 0x00, 0x1b, 0x82, 0x01, 0x04, 0x00, 0x01, 0x86, 0x10, 0xcd, 0x02, 0x00, 0x11,
        0x00, 0x14, 0x00, 0x13, 0x00, 0x12, 0xce, 0xff, 0xff, 0xff, 0xff, 0x20, 0x91, 0xcd, 0x01, 0x18,
    };
    s->n = 0;
    put(s, select, sizeof select);
}

/* Identity, three numbers, two flags, a float, a small map, a name and a text. */
static void put_record(struct sample *s, size_t i)
{
    put_array(s, 10);
    put_unsigned(s, 1000 + i);
    put_unsigned(s, i % 7);
    put_unsigned(s, 1600000000 + 97 * i);
    put_byte(s, 0xff);
    put_byte(s, 0xc3);
    put_byte(s, 0xc0);
    put_tagged(s, 0xcb, 0x3ff8000000000000 + i, 8);
    put_tagged(s, 0x81, 0, 0);
    put_letters(s, 4);
    put_unsigned(s, i);
    put_letters(s, 12 + i % 5);
    put_letters(s, 70);
}

static void put_answer(struct sample *s, size_t tuples)
{
    put_array(s, tuples);
    for (size_t i = 0; i < tuples; i++)
        put_record(s, i);
}

void answer_sample(struct sample *s, size_t tuples)
{
    s->n = 0;
    put_answer(s, tuples);
}

void strings_sample(struct sample *s, size_t strings)
{
    s->n = 0;
    put_array(s, strings);
    for (size_t i = 0; i < strings; i++)
        put_letters(s, 253);
}

void integers_sample(struct sample *s, size_t integers)
{
    s->n = 0;
    put_array(s, integers);
    for (size_t i = 0; i < integers; i++)
        put_byte(s, i % 4 == 3 ? 0xe0 + i % 32 : i % 128);
}

void numbers_sample(struct sample *s, size_t numbers)
{
    s->n = 0;
    put_array(s, numbers);
    for (size_t i = 0; i < numbers; i++)
        put_tagged(s, 0xce, 0x10000000 + 977 * i, 4);
}

static void put_text(struct sample *s, const char *text)
{
    put_byte(s, 0xa0 + (unsigned)strlen(text));
    put(s, text, strlen(text));
}

/* A car as a map: number, plate, wash mode, points, whether it is paid, the visits. */
static void put_car(struct sample *s, size_t i)
{
    put_byte(s, 0x86);
    put_text(s, "id");
    put_unsigned(s, 100 * i);
    put_text(s, "plate");
    put_letters(s, 6 + i % 3);
    put_text(s, "mode");
    put_unsigned(s, i % 8);
    put_text(s, "points");
    put_tagged(s, 0xcb, 0x4050000000000000 + i, 8);
    put_text(s, "paid");
    put_byte(s, i % 3 ? 0xc3 : 0xc2);
    put_text(s, "visits");
    put_array(s, 2 + i % 2);
    for (size_t k = 0; k < 2 + i % 2; k++)
        put_unsigned(s, 300 * i + k);
}

void records_sample(struct sample *s, size_t records)
{
    s->n = 0;
    put_array(s, records);
    for (size_t i = 0; i < records; i++)
        put_car(s, i);
}

/* A value of a fixed length: nil, a boolean, a float, a signed integer or an ext of four bytes. */
static void put_fixed(struct sample *s, uint32_t drawn)
{
    static const unsigned first[8] = {0xc0, 0xc2, 0xc3, 0xca, 0xcb, 0xd1, 0xd2, 0xd6};
    static const size_t bytes[8] = {0, 0, 0, 4, 8, 2, 4, 5};
    size_t form = drawn % 8;
    put_tagged(s, first[form], drawn, bytes[form]);
}

/* A string, an array of a string and a number, or a map of one number by a name. */
static void put_short(struct sample *s, uint32_t drawn)
{
    size_t n = drawn / 8 % 32;
    if (drawn % 8 == 0)
        put_array(s, 2);
    else if (drawn % 8 == 1)
        put_byte(s, 0x81);
    put_letters(s, 2 * n);
    if (drawn % 8 < 2)
        put_unsigned(s, n << 5);
}

/* Of four values one of each kind above, and two unsigned numbers of any width. */
static void put_drawn(struct sample *s, uint32_t drawn)
{
    if (drawn % 4 == 0)
        put_fixed(s, drawn / 4);
    else if (drawn % 4 == 1)
        put_short(s, drawn / 4);
    else
        put_unsigned(s, drawn >> drawn / 4 % 32);
}

void mixed_sample(struct sample *s, size_t values)
{
    uint32_t drawn = 1;
    s->n = 0;
    put_array(s, values);
    for (size_t i = 0; i < values; i++) {
        drawn = drawn * 1664525 + 1013904223;
        put_drawn(s, drawn >> 8);
    }
}

/* So many arrays in one another. */
static void put_nested(struct sample *s, size_t depth)
{
    for (size_t i = 1; i < depth; i++)
        put_array(s, 1);
    put_array(s, 0);
}

void nesting_sample(struct sample *s, size_t items, size_t depth)
{
    s->n = 0;
    put_array(s, items);
    for (size_t i = 0; i < items; i++)
        put_nested(s, depth - 1);
}

/* The size, which stands first, is known last. */
static void start_frame(struct sample *s)
{
    s->n = 0;
    put_tagged(s, 0xce, 0, 4);
}

static void end_frame(struct sample *s)
{
    size_t n = s->n;
    s->n = 0;
    put_tagged(s, 0xce, n - 5, 4);
    s->n = n;
}

/* Code, sync and schema version. */
static void put_header(struct sample *s, unsigned code)
{
    put_byte(s, 0x83);
    put_byte(s, 0x00);
    put_unsigned(s, code);
    put_byte(s, 0x01);
    put_unsigned(s, 4711);
    put_byte(s, 0x05);
    put_unsigned(s, 80);
}

void ok_frame_sample(struct sample *s, size_t tuples)
{
    start_frame(s);
    put_header(s, 0x00);
    put_byte(s, 0x81);
    put_byte(s, 0x30);
    put_answer(s, tuples);
    end_frame(s);
}

void deep_frame_sample(struct sample *s)
{
    start_frame(s);
    put_header(s, 0x00);
    put_byte(s, 0x81);
    put_byte(s, 0x30);
    put_nested(s, 15);
    end_frame(s);
}

/* An operation up to its argument; the field is counted from 0. */
static void put_operation(struct sample *s, char mark, size_t field)
{
    put_array(s, mark == ':' ? 5 : 3);
    put_byte(s, 0xa1);
    put_byte(s, (unsigned)mark);
    put_unsigned(s, field + INDEX_BASE);
}

void update_frame_sample(struct sample *s)
{
    start_frame(s);
    put_header(s, 0x04);
    put_byte(s, 0x84);
    put_byte(s, 0x10);
    put_unsigned(s, 512);
    put_byte(s, 0x11);
    put_unsigned(s, 0);
    put_byte(s, 0x20);
    put_array(s, 1);
    put_unsigned(s, 280);
    put_byte(s, 0x21);
    put_array(s, 1);
    put_operation(s, '^', 3);
    put_unsigned(s, 1);
    end_frame(s);
}

/* Small tuples have six fields, others 48: a list of 64 then finds a field for each operation that needs one.
 */
struct shape shape_of(size_t bytes)
{
    struct shape shape = { 4, 2, 3 };
    if (bytes < 200)
        return shape;
    shape.integers = 32;
    shape.strings = 16;
    shape.string_length = (bytes - 3 - 3 * shape.integers) / shape.strings - 3;
    return shape;
}

void tuple_sample(struct sample *s, struct shape shape)
{
    s->n = 0;
    put_array(s, shape.integers + shape.strings);
    for (size_t i = 0; i < shape.integers; i++)
        put_unsigned(s, 500 + i);
    for (size_t i = 0; i < shape.strings; i++)
        put_letters(s, shape.string_length);
}

/* A field put in, or taken out again, between the integers and the strings. */
static void put_coming_or_going(struct sample *s, struct shape shape, size_t i)
{
    put_operation(s, i % 2 ? '#' : '!', shape.integers);
    put_unsigned(s, 1);
}

/*
 * In turn + = ^ : - ! | #, each number and string touched once at most, since the server refuses to alter a
 * field twice; where they are used up, fields come and go.
 */
void list_sample(struct sample *s, struct shape shape, size_t operations)
{
    static const char marks[8] = { '+', '=', '^', ':', '-', '!', '|', '#' };
    size_t integer = 0, string = 0, inside = 0;
    s->n = 0;
    put_array(s, operations);
    for (size_t i = 0; i < operations; i++) {
        char mark = marks[i % 8];
        if (mark == '=' && string < shape.strings) {
            put_operation(s, mark, shape.integers + string++);
            put_letters(s, shape.string_length + 1);
        } else if (mark == ':' && string < shape.strings) {
            put_operation(s, mark, shape.integers + string++);
            put_unsigned(s, 1);
            put_unsigned(s, 1);
            put_letters(s, 2);
        } else if (i % 2 == 0 && integer < shape.integers) {
            put_operation(s, mark, integer++);
            put_unsigned(s, 1 + i);
        } else {
            put_coming_or_going(s, shape, inside++);
        }
    }
}

enum { FIELD_DEPTH = 12 };

void deep_tuple_sample(struct sample *s, size_t bytes)
{
    s->n = 0;
    put_array(s, 3);
    put_nested(s, FIELD_DEPTH);
    put_letters(s, 20);
    put_letters(s, bytes - s->n - 3);
}

void deep_list_sample(struct sample *s, size_t operations)
{
    s->n = 0;
    put_array(s, operations);
    for (size_t i = 0; i < operations; i++) {
        put_operation(s, i % 2 ? ':' : '=', i % 2);
        if (i % 2) {
            put_unsigned(s, 1);
            put_unsigned(s, 1);
            put_letters(s, 1);
        } else {
            put_nested(s, FIELD_DEPTH);
        }
    }
}

void long_tuple_sample(struct sample *s, size_t bytes)
{
    s->n = 0;
    put_array(s, 1);
    put_letters(s, bytes - 4);
}

void splices_sample(struct sample *s, size_t operations)
{
    s->n = 0;
    put_array(s, operations);
    for (size_t i = 0; i < operations; i++) {
        put_operation(s, ':', 0);
        put_unsigned(s, 1 + i);
        put_unsigned(s, 1);
        put_letters(s, 1);
    }
}
