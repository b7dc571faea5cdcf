/* The header against the library: layouts, the calls that read, write and update on document 01's
 * examples, every refusal and its words; sessions.c has the sessions. Valid C99 and C++11; the last
 * line is `N passed, M failed`. */
#include "testing.h"

/* ---- layouts, which C and C++ check while compiling */

HOLDS(size_t, sizeof(size_t) == 8);
HOLDS(number, sizeof(lak_number) == 16 && offsetof(lak_number, value) == 8);
HOLDS(place, sizeof(lak_place) == 24 && offsetof(lak_place, start) == 8 && offsetof(lak_place, length) == 16);
HOLDS(frame, sizeof(lak_frame) == 8 + 8 * 16 + 8 * 24);
HOLDS(frame_numbers, offsetof(lak_frame, sync) == 8 && offsetof(lak_frame, index_base) == 8 + 7 * 16);
HOLDS(frame_places, offsetof(lak_frame, key) == 8 + 8 * 16 && offsetof(lak_frame, error) == 8 + 8 * 16 + 7 * 24);
HOLDS(frame_answer, sizeof(lak_frame_answer) == 32 + sizeof(lak_frame) && offsetof(lak_frame_answer, frame) == 16);
HOLDS(frame_answer_place, offsetof(lak_frame_answer, place) == 16 + sizeof(lak_frame));
HOLDS(answer, sizeof(lak_answer) == 32 && offsetof(lak_answer, operation) == 4 && offsetof(lak_answer, length) == 8);
HOLDS(answer_place, offsetof(lak_answer, place) == 16);
HOLDS(press_answer, sizeof(lak_press_answer) == 40 && offsetof(lak_press_answer, operation) == 4);
HOLDS(press_lengths, offsetof(lak_press_answer, length) == 8 && offsetof(lak_press_answer, undo_length) == 16);
HOLDS(press_place, offsetof(lak_press_answer, place) == 24);
HOLDS(value_answer, sizeof(lak_value_answer) == 64 && offsetof(lak_value_answer, kind) == 4);
HOLDS(value_fields, offsetof(lak_value_answer, bits) == 16 && offsetof(lak_value_answer, ext_type) == 40);
HOLDS(value_place, offsetof(lak_value_answer, place) == 48);
HOLDS(ext_type, sizeof(((lak_value_answer *)0)->ext_type) == 1);

/* ---- help */

static bytes first, second, wanted, wanted_undo;
static uint8_t out[70000], undo_out[70000];

static void fresh(void)
{
    memset(out, 0x5a, sizeof out);
    memset(undo_out, 0x5a, sizeof undo_out);
}

/* Whether a lent buffer of 70,000 bytes holds these, and past them what it held before. */
static bool holds_these(const uint8_t *lent, const bytes *b)
{
    size_t i;
    for (i = b->n; i < sizeof out; i++)
        if (lent[i] != 0x5a)
            return false;
    return memcmp(lent, b->at, b->n) == 0;
}

static bool holds_only(const bytes *b)
{
    return holds_these(out, b);
}

/* Whether the call answered so, with these bytes in `out`; refused, with length 0 and no byte changed. No value broke.
 */
static bool gave(lak_answer a, uint32_t number, uint32_t operation, const char *text)
{
    hex(&wanted, number == LAK_OK ? text : "");
    return a.number == number && a.operation == operation && a.length == wanted.n && no_number(a.place) &&
           holds_only(&wanted);
}

/* The same of a press: these bytes in its two buffers, or none. */
static bool pressed(lak_press_answer a, uint32_t number, uint32_t operation, const char *text, const char *undo)
{
    hex(&wanted, number == LAK_OK ? text : "");
    hex(&wanted_undo, number == LAK_OK ? undo : "");
    return a.number == number && a.operation == operation && a.length == wanted.n && a.undo_length == wanted_undo.n &&
           no_number(a.place) && holds_these(out, &wanted) && holds_these(undo_out, &wanted_undo);
}

/* Whether the call was refused so, with this place. */
static bool broke(lak_answer a, uint32_t number, lak_number place)
{
    hex(&wanted, "");
    return a.number == number && a.operation == 0 && a.length == 0 && same_number(a.place, place) &&
           holds_only(&wanted);
}

/* ---- values */

typedef struct {
    const char *text;
    lak_value_answer is;
} value_case;

static const value_case values[] = {
    {"c0", {LAK_OK, LAK_KIND_NIL, 1, 0, 0, 0, 0, NONE}},
    {"c2", {LAK_OK, LAK_KIND_BOOLEAN, 1, 0, 0, 0, 0, NONE}},
    {"c3 c1", {LAK_OK, LAK_KIND_BOOLEAN, 1, 1, 0, 0, 0, NONE}},
    {"cd 00 05", {LAK_OK, LAK_KIND_FROM_ZERO, 3, 5, 0, 0, 0, NONE}},
    {"cf ff ff ff ff ff ff ff ff", {LAK_OK, LAK_KIND_FROM_ZERO, 9, UINT64_MAX, 0, 0, 0, NONE}},
    {"ff", {LAK_OK, LAK_KIND_BELOW_ZERO, 1, (uint64_t)-1, 0, 0, 0, NONE}},
    {"d3 80 00 00 00 00 00 00 00", {LAK_OK, LAK_KIND_BELOW_ZERO, 9, (uint64_t)INT64_MIN, 0, 0, 0, NONE}},
    {"ca 7f c0 00 01", {LAK_OK, LAK_KIND_FLOAT32, 5, 0x7fc00001, 0, 0, 0, NONE}},
    {"cb bf f0 00 00 00 00 00 00", {LAK_OK, LAK_KIND_FLOAT64, 9, 0xbff0000000000000u, 0, 0, 0, NONE}},
    {"a2 ff fe", {LAK_OK, LAK_KIND_STRING, 3, 0, 1, 2, 0, NONE}},
    {"c4 01 07", {LAK_OK, LAK_KIND_BIN, 3, 0, 2, 1, 0, NONE}},
    {"d4 85 07", {LAK_OK, LAK_KIND_EXT, 3, 0, 2, 1, 0x85, NONE}},
    {"dd 00 00 00 01 07 07", {LAK_OK, LAK_KIND_ARRAY, 6, 0, 0, 6, 0, NONE}},
    {"81 01 90", {LAK_OK, LAK_KIND_MAP, 3, 0, 0, 3, 0, NONE}},
    {"91 91 91 91 91 91 91 91 91 91 91 91 91 91 91 90", {LAK_OK, LAK_KIND_ARRAY, 16, 0, 0, 16, 0, NONE}},
    {"91 91 91 91 91 91 91 91 91 91 91 91 91 91 91 91 90", {LAK_BROKEN, 0, 0, 0, 0, 0, 0, AT(16)}},
    {"92 91 91 91 91 91 91 91 91 91 91 91 91 91 91 91 91 c1", {LAK_BROKEN, 0, 0, 0, 0, 0, 0, AT(16)}},
    {"92 c1 91 91 91 91 91 91 91 91 91 91 91 91 91 91 91 91", {LAK_BROKEN, 0, 0, 0, 0, 0, 0, AT(1)}},
    {"", {LAK_BROKEN, 0, 0, 0, 0, 0, 0, AT(0)}},
    {"c1", {LAK_BROKEN, 0, 0, 0, 0, 0, 0, AT(0)}},
    {"93 05 c1 c1", {LAK_BROKEN, 0, 0, 0, 0, 0, 0, AT(2)}},
    {"93 05 a1", {LAK_BROKEN, 0, 0, 0, 0, 0, 0, AT(3)}},
    {"a3 61 c1", {LAK_BROKEN, 0, 0, 0, 0, 0, 0, AT(3)}},
    {"c7 00", {LAK_BROKEN, 0, 0, 0, 0, 0, 0, AT(2)}},
};

static void check_values(void)
{
    size_t i;
    for (i = 0; i < sizeof values / sizeof values[0]; i++) {
        const lak_value_answer *is = &values[i].is;
        lak_value_answer a;
        hex(&first, values[i].text);
        a = lak_value_read(first.at, first.n);
        expect(a.number == is->number && a.kind == is->kind && a.length == is->length, "lak_value_read",
               values[i].text);
        expect(a.bits == is->bits && a.start == is->start && a.size == is->size && a.ext_type == is->ext_type,
               "lak_value_read, content", values[i].text);
        expect(same_number(a.place, is->place), "lak_value_read, place", values[i].text);
    }
}

/* ---- frames */

static const char select_of_001[] = "ce 00 00 00 1b 82 01 04 00 01 86 10 cd 02 00 11 00 14 00 13 00 12 ce ff ff ff ff"
                                    " 20 91 cd 01 18";
static const char select_written[] = "ce 00 00 00 1b 82 00 01 01 04 86 10 cd 02 00 11 00 12 ce ff ff ff ff 13 00 14 00"
                                     " 20 91 cd 01 18";
static const char every_key[] = "ce 00 00 00 2a 83 00 01 01 08 05 09 8e 10 01 11 02 12 03 13 04 14 05 15 01 20 91 06"
                                " 21 91 07 22 a1 66 23 a1 75 27 a1 65 28 90 30 c0 31 a1 78";

typedef struct {
    const char *text;
    uint32_t number;
    lak_number place;
} frame_case;

static const frame_case refused_frames[] = {
    {"", LAK_INCOMPLETE, NONE},
    {"00", LAK_BAD_SIZE, NONE},
    {"e0", LAK_NO_SIZE, NONE},
    {"ce 00 00 ea 61", LAK_BAD_SIZE, NONE},
    {"ce 00 00 ea 60", LAK_INCOMPLETE, NONE},
    {"ce 00", LAK_INCOMPLETE, NONE},
    {"01 c1", LAK_BROKEN, AT(1)},
    {"cd 00 01 c1", LAK_BROKEN, AT(3)},
    {"03 82 00 40 01 01", LAK_BROKEN, AT(4)},
    {"ce 00 00 00 08 81 00 40 82 30 c0 31 c1 c1", LAK_BROKEN, AT(12)},
    {"cf 00 00 00 00 00 00 00 08 81 00 40 81 30 a3 61 62 63", LAK_BROKEN, AT(17)},
    {"14 82 00 40 7e 91 91 91 91 91 91 91 91 91 91 91 91 91 91 91 90", LAK_BROKEN, AT(20)},
    {"15 81 00 40 81 7e 91 91 91 91 91 91 91 91 91 91 91 91 91 91 91 90", LAK_BROKEN, AT(21)},
    {"02 c0 c1", LAK_BROKEN, AT(2)},
    {"03 c1", LAK_INCOMPLETE, NONE},
    {"05 81 00 40 80 c1", LAK_LEFT_OVER, NONE},
    {"03 80 80 00", LAK_LEFT_OVER, NONE},
    {"01 90", LAK_BAD_MAP, NONE},
    {"05 82 00 40 00 40", LAK_KEY_TWICE, NONE},
    {"01 80", LAK_BAD_CODE, NONE},
    {"05 81 00 cd 7f ff", LAK_BAD_CODE, NONE},
    {"05 81 00 cd 90 00", LAK_BAD_CODE, NONE},
    {"05 82 00 40 01 a0", LAK_BAD_HELD, NONE},
    {"03 81 00 01", LAK_KEY_MISSING, NONE},
    {"0f 81 00 01 85 10 01 11 02 13 04 14 05 20 91 06", LAK_KEY_MISSING, NONE},
    {"09 81 00 01 82 10 01 20 91 06", LAK_KEY_MISSING, NONE},
    {"09 81 00 04 82 10 01 20 91 06", LAK_KEY_MISSING, NONE},
    {"06 81 00 05 81 10 01", LAK_KEY_MISSING, NONE},
    {"0d 81 00 01 84 10 01 11 c0 12 03 20 91 06", LAK_BAD_HELD, NONE},
};

typedef struct {
    uint64_t code;
    const char *text;
} kind_case;

/* A frame of each kind, with exactly the keys that it requires; a select, update and delete also with those that they
 * may leave out. */
static const kind_case kinds[] = {
    {LAK_CODE_OK, "03 81 00 00"},
    {LAK_CODE_SELECT, "0b 81 00 01 83 10 01 12 03 20 91 06"},
    {LAK_CODE_SELECT, "11 81 00 01 86 10 01 11 02 12 03 13 04 14 05 20 91 06"},
    {LAK_CODE_INSERT, "09 81 00 02 82 10 01 21 91 07"},
    {LAK_CODE_REPLACE, "09 81 00 03 82 10 01 21 91 07"},
    {LAK_CODE_UPDATE, "0c 81 00 04 83 10 01 20 91 06 21 91 07"},
    {LAK_CODE_UPDATE, "0e 81 00 04 84 10 01 11 02 20 91 06 21 91 07"},
    {LAK_CODE_DELETE, "09 81 00 05 82 10 01 20 91 06"},
    {LAK_CODE_DELETE, "0b 81 00 05 83 10 01 11 02 20 91 06"},
    {LAK_CODE_CALL_16, "0a 81 00 06 82 22 a1 66 21 91 07"},
    {LAK_CODE_AUTH, "0a 81 00 07 82 23 a1 75 21 91 07"},
    {LAK_CODE_EVAL, "0a 81 00 08 82 27 a1 65 21 91 07"},
    {LAK_CODE_UPSERT, "0b 81 00 09 83 10 01 21 91 07 28 90"},
    {LAK_CODE_CALL, "0a 81 00 0a 82 22 a1 66 21 91 07"},
    {LAK_CODE_PING, "03 81 00 40"},
    {LAK_CODE_ERROR_FIRST, "09 81 00 cd 80 00 81 31 a1 78"},
    {LAK_CODE_ERROR_LAST, "09 81 00 cd 8f ff 81 31 a1 78"},
};

static void check_kinds(void)
{
    size_t i;
    for (i = 0; i < sizeof kinds / sizeof kinds[0]; i++) {
        lak_frame_answer a;
        hex(&first, kinds[i].text);
        a = lak_frame_read(first.at, first.n);
        expect(a.number == LAK_OK && a.length == first.n && a.frame.code == kinds[i].code && no_number(a.place),
               "lak_frame_read", kinds[i].text);
        fresh();
        expect(lak_frame_write(a.frame, first.at, first.n, out, sizeof out).number == LAK_OK, "lak_frame_write",
               kinds[i].text);
    }
}

static bool is_number(lak_number n, uint64_t value)
{
    return n.present && n.value == value;
}

static bool is_place(lak_place p, uint64_t start, uint64_t length)
{
    return p.present && p.start == start && p.length == length;
}

static lak_frame empty_frame(void)
{
    lak_frame f;
    memset(&f, 0, sizeof f);
    return f;
}

static void check_refused_frames(void)
{
    size_t i;
    for (i = 0; i < sizeof refused_frames / sizeof refused_frames[0]; i++) {
        lak_frame_answer a;
        hex(&first, refused_frames[i].text);
        a = lak_frame_read(first.at, first.n);
        expect(a.number == refused_frames[i].number && a.length == 0 && is_empty(a.frame), "lak_frame_read",
               refused_frames[i].text);
        expect(same_number(a.place, refused_frames[i].place), "lak_frame_read, place", refused_frames[i].text);
    }
}

/* 001's select: read, read with more behind it, cut, and written with its keys rising. */
static void check_select(void)
{
    lak_frame_answer a;
    hex(&first, select_of_001);
    a = lak_frame_read(first.at, first.n);
    expect(a.number == LAK_OK && a.length == 32 && a.frame.code == LAK_CODE_SELECT, "lak_frame_read", "select");
    expect(is_number(a.frame.sync, 4) && is_number(a.frame.space, 512) && is_number(a.frame.limit, 4294967295u),
           "lak_frame_read", "select's numbers");
    expect(is_place(a.frame.key, 28, 4) && !a.frame.tuple.present && !a.frame.schema_version.present, "lak_frame_read",
           "select's places");
    fresh();
    expect(gave(lak_frame_write(a.frame, first.at, first.n, out, 32), LAK_OK, 0, select_written), "lak_frame_write",
           "select");
    expect(lak_frame_read(first.at, 33).length == 32, "lak_frame_read", "select and one more byte");
    expect(lak_frame_read(first.at, 31).number == LAK_INCOMPLETE, "lak_frame_read", "select, cut");
}

/* Each field is where the library has it, in both directions. */
static void check_every_key(void)
{
    lak_frame_answer a;
    lak_frame f;
    hex(&first, every_key);
    a = lak_frame_read(first.at, first.n);
    f = a.frame;
    expect(a.number == LAK_OK && a.length == first.n && f.code == LAK_CODE_SELECT, "lak_frame_read", "every key");
    expect(is_number(f.sync, 8) && is_number(f.schema_version, 9) && is_number(f.space, 1) && is_number(f.index, 2) &&
               is_number(f.limit, 3) && is_number(f.offset, 4) && is_number(f.iterator, 5) &&
               is_number(f.index_base, 1),
           "lak_frame_read", "every number");
    expect(is_place(f.key, 26, 2) && is_place(f.tuple, 29, 2) && is_place(f.function, 32, 2) &&
               is_place(f.user, 35, 2) && is_place(f.expression, 38, 2) && is_place(f.ops, 41, 1) &&
               is_place(f.data, 43, 1) && is_place(f.error, 45, 2),
           "lak_frame_read", "every place");
    fresh();
    expect(gave(lak_frame_write(f, first.at, first.n, out, first.n), LAK_OK, 0, every_key), "lak_frame_write",
           "every key");
    fresh();
    expect(gave(lak_frame_write(f, first.at, first.n, out, first.n - 1), LAK_SHORT_BUFFER, 0, ""), "lak_frame_write",
           "one byte short");
}

/* An insert of the bytes of `first`, all of them. */
static lak_frame insert(uint64_t space)
{
    lak_frame f = empty_frame();
    f.code = LAK_CODE_INSERT;
    f.space.present = true;
    f.space.value = space;
    f.tuple.present = true;
    f.tuple.length = first.n;
    return f;
}

static void refuses(lak_frame f, uint32_t number, const char *what)
{
    fresh();
    expect(gave(lak_frame_write(f, first.at, first.n, out, sizeof out), number, 0, ""), "lak_frame_write", what);
}

static void check_refused_writing(void)
{
    lak_frame f = empty_frame();
    hex(&first, "91 05");
    f.code = 0x3f;
    refuses(f, LAK_BAD_CODE, "unknown code");
    f = insert(512);
    f.tuple.start = 1;
    refuses(f, LAK_BROKEN, "a place past the bytes");
    hex(&first, "91 c1");
    refuses(insert(512), LAK_BROKEN, "a broken value");
    hex(&first, "91 05");
    refuses(insert(4294967296u), LAK_BAD_HELD, "space above 32 bits");
    f = insert(512);
    f.space.present = false;
    refuses(f, LAK_KEY_MISSING, "no space");
    first.n = 60003;
    memset(first.at, 0, first.n);
    hex(&second, "dc ea 60"); /* an array of 60,000 zeros */
    memcpy(first.at, second.at, second.n);
    refuses(insert(512), LAK_BAD_SIZE, "more than 60,000 bytes");
}

/* A select, update and delete without index, offset, iterator and index base, as the writer makes them. */
static const char *const left_out[] = {
    "ce 00 00 00 0b 81 00 01 83 10 01 12 03 20 91 06",
    "ce 00 00 00 0c 81 00 04 83 10 01 20 91 06 21 91 07",
    "ce 00 00 00 09 81 00 05 82 10 01 20 91 06",
};

/* Read, they are absent and 0; written again, they are left out. */
static void check_left_out(void)
{
    size_t i;
    for (i = 0; i < sizeof left_out / sizeof left_out[0]; i++) {
        lak_frame_answer a;
        hex(&first, left_out[i]);
        a = lak_frame_read(first.at, first.n);
        expect(a.number == LAK_OK && a.length == first.n, "lak_frame_read", left_out[i]);
        expect(no_number(a.frame.index) && no_number(a.frame.offset) && no_number(a.frame.iterator) &&
                   no_number(a.frame.index_base),
               "lak_frame_read, absent", left_out[i]);
        fresh();
        expect(gave(lak_frame_write(a.frame, first.at, first.n, out, first.n), LAK_OK, 0, left_out[i]),
               "lak_frame_write", left_out[i]);
    }
}

/* A select record made by hand, whose key is `first`. */
static void check_select_by_hand(void)
{
    lak_frame f = empty_frame();
    hex(&first, "91 06");
    f.code = LAK_CODE_SELECT;
    f.space.present = f.limit.present = f.key.present = true;
    f.space.value = 1;
    f.limit.value = 3;
    f.key.length = first.n;
    f.index.value = f.offset.value = f.iterator.value = 7;
    fresh();
    expect(gave(lak_frame_write(f, first.at, first.n, out, 16), LAK_OK, 0, left_out[0]), "lak_frame_write",
           "an absent index with a value");
    f.index.present = true;
    f.index.value = 0;
    fresh();
    expect(gave(lak_frame_write(f, first.at, first.n, out, 18), LAK_OK, 0,
                "ce 00 00 00 0d 81 00 01 84 10 01 11 00 12 03 20 91 06"),
           "lak_frame_write", "index 0");
    f.limit.present = false;
    refuses(f, LAK_KEY_MISSING, "no limit");
}

/* ---- updates */

typedef struct {
    const char *tuple, *list;
    uint64_t base;
    uint32_t number, operation;
    const char *after, *undo;
} update_case;

static const update_case updates[] = {
    {"93 05 a2 61 62 c3", "91 93 a1 5e 00 01", 0, LAK_OK, 0, "93 04 a2 61 62 c3", "91 93 a1 3d 00 05"},
    {"93 05 a2 61 62 c3", "91 93 a1 5e 01 01", 1, LAK_OK, 0, "93 04 a2 61 62 c3", "91 93 a1 3d 00 05"},
    {"91 cd 00 05", "91 93 a1 2b 00 01", 0, LAK_OK, 0, "91 06", "91 93 a1 3d 00 cd 00 05"},
    {"93 01 02 03", "91 93 a1 23 01 05", 0, LAK_OK, 0, "91 01", "92 93 a1 21 01 03 93 a1 21 01 02"},
    {"91 01", "91 93 a1 3d 01 09", 0, LAK_OK, 0, "92 01 09", "91 93 a1 23 01 01"},
    {"91 a3 61 62 63", "91 95 a1 3a 00 01 01 a2 58 59", 0, LAK_OK, 0, "91 a4 61 58 59 63",
     "91 93 a1 3d 00 a3 61 62 63"},
    {"91 00", "91 93 a1 2d 00 01", 0, LAK_OK, 0, "91 ff", "91 93 a1 3d 00 00"},
    {"dd 00 00 00 01 07", "90", 0, LAK_OK, 0, "91 07", "90"},
    {"90", "90", 0, LAK_OK, 0, "90", "90"},
    {"c0", "90", 0, LAK_BAD_TUPLE, 0, "", ""},
    {"91 01", "c0", 0, LAK_BAD_LIST, 0, "", ""},
    {"91 01", "90", 2, LAK_BAD_LIST, 0, "", ""},
    {"91 01", "91 93 a1 2b 05 01", 0, LAK_NO_FIELD, 0, "", ""},
    {"91 01", "92 93 a1 3d 00 05 93 a1 2b 07 01", 0, LAK_NO_FIELD, 1, "", ""},
    {"91 a0", "91 93 a1 2b 00 01", 0, LAK_UNSUITED, 0, "", ""},
    {"91 cf ff ff ff ff ff ff ff ff", "91 93 a1 2b 00 01", 0, LAK_OUT_OF_RANGE, 0, "", ""},
};

static void check_updates(void)
{
    size_t i;
    for (i = 0; i < sizeof updates / sizeof updates[0]; i++) {
        const update_case *u = &updates[i];
        lak_answer a;
        hex(&first, u->tuple);
        hex(&second, u->list);
        fresh();
        a = lak_update(first.at, first.n, second.at, second.n, u->base, out, LAK_TUPLE_ROOM);
        expect(gave(a, u->number, u->operation, u->after), "lak_update", u->tuple);
        fresh();
        a = lak_undo(first.at, first.n, second.at, second.n, u->base, out, LAK_UNDO_ROOM);
        expect(gave(a, u->number, u->operation, u->undo), "lak_undo", u->tuple);
        hex(&wanted, u->after);
        fresh();
        a = lak_update(first.at, first.n, second.at, second.n, u->base, out, wanted.n - (wanted.n > 0));
        expect(gave(a, u->number ? u->number : (uint32_t)LAK_SHORT_BUFFER, u->operation, ""), "lak_update, short",
               u->tuple);
        hex(&wanted, u->undo);
        fresh();
        a = lak_undo(first.at, first.n, second.at, second.n, u->base, out, wanted.n - (wanted.n > 0));
        expect(gave(a, u->number ? u->number : (uint32_t)LAK_SHORT_BUFFER, u->operation, ""), "lak_undo, short",
               u->tuple);
    }
}

/* A press of `first` by `second`, with so much room. */
static lak_press_answer press(uint64_t base, size_t room, size_t undo_room)
{
    fresh();
    return lak_press(first.at, first.n, second.at, second.n, base, out, room, undo_out, undo_room);
}

/* With ample room and with exactly enough; with one byte less for either or both, neither buffer is changed. */
static void check_presses(void)
{
    size_t i;
    for (i = 0; i < sizeof updates / sizeof updates[0]; i++) {
        const update_case *u = &updates[i];
        const uint32_t or_18 = u->number ? u->number : (uint32_t)LAK_SHORT_BUFFER;
        size_t n, m;
        hex(&first, u->tuple);
        hex(&second, u->list);
        hex(&wanted, u->after);
        hex(&wanted_undo, u->undo);
        n = wanted.n;
        m = wanted_undo.n;
        expect(pressed(press(u->base, LAK_TUPLE_ROOM, LAK_UNDO_ROOM), u->number, u->operation, u->after, u->undo),
               "lak_press", u->tuple);
        expect(pressed(press(u->base, n, m), u->number, u->operation, u->after, u->undo), "lak_press, exact room",
               u->tuple);
        expect(pressed(press(u->base, n - (n > 0), LAK_UNDO_ROOM), or_18, u->operation, "", ""), "lak_press, short out",
               u->tuple);
        expect(pressed(press(u->base, LAK_TUPLE_ROOM, m - (m > 0)), or_18, u->operation, "", ""),
               "lak_press, short undo", u->tuple);
        expect(pressed(press(u->base, 0, 0), or_18, u->operation, "", ""), "lak_press, no room", u->tuple);
    }
}

/* Each update that went in is taken back to the old fields. */
static void check_taking_back(void)
{
    static uint8_t after[LAK_TUPLE_ROOM], undo[LAK_UNDO_ROOM];
    size_t i;
    for (i = 0; updates[i].number == LAK_OK; i++) {
        const update_case *u = &updates[i];
        lak_answer done, list, plain, back;
        hex(&first, u->tuple);
        hex(&second, u->list);
        done = lak_update(first.at, first.n, second.at, second.n, u->base, after, sizeof after);
        list = lak_undo(first.at, first.n, second.at, second.n, u->base, undo, sizeof undo);
        hex(&second, "90"); /* an empty list gives the plain form */
        plain = lak_update(first.at, first.n, second.at, second.n, 0, wanted.at, LAK_TUPLE_ROOM);
        wanted.n = plain.length;
        fresh();
        back = lak_update(after, done.length, undo, list.length, 0, out, plain.length);
        expect(back.number == LAK_OK && back.length == wanted.n && holds_only(&wanted), "taking back", u->tuple);
    }
}

/* 64 fields pass; a 65th is refused with 16; an undo list of 65 operations with 17. */
static void check_64_fields(void)
{
    hex(&first, "dc 00 40");
    memset(first.at + 3, 1, 64);
    first.n = 67;
    hex(&second, "90");
    fresh();
    expect(lak_update(first.at, first.n, second.at, second.n, 0, out, LAK_TUPLE_ROOM).number == LAK_OK &&
               holds_only(&first),
           "lak_update", "64 fields");
    hex(&second, "91 93 a1 21 00 01");
    fresh();
    expect(gave(lak_update(first.at, first.n, second.at, second.n, 0, out, LAK_TUPLE_ROOM), LAK_TOO_LARGE, 0, ""),
           "lak_update", "65 fields");
    expect(pressed(press(0, LAK_TUPLE_ROOM, LAK_UNDO_ROOM), LAK_TOO_LARGE, 0, "", ""), "lak_press", "65 fields");
    hex(&second, "92 93 a1 23 00 40 93 a1 21 00 01");
    fresh();
    expect(gave(lak_undo(first.at, first.n, second.at, second.n, 0, out, LAK_UNDO_ROOM), LAK_LONG_UNDO, 0, ""),
           "lak_undo", "65 operations");
    expect(pressed(press(0, LAK_TUPLE_ROOM, LAK_UNDO_ROOM), LAK_LONG_UNDO, 0, "", ""), "lak_press", "65 operations");
    expect(pressed(press(0, 0, 0), LAK_LONG_UNDO, 0, "", ""), "lak_press", "17 before 18");
    fresh();
    expect(gave(lak_update(first.at, first.n, second.at, second.n, 0, out, LAK_TUPLE_ROOM), LAK_OK, 0, "91 01"),
           "lak_update", "whose undo list is too long");
}

/* ---- where a tuple or a list broke, whatever else is wrong beside it */

typedef struct {
    const char *tuple, *list;
    uint64_t base;
    uint32_t number;
    lak_number place;
} broken_case;

#define ARRAYS_12 "91 91 91 91 91 91 91 91 91 91 91 90"
#define ARRAYS_13 "91 " ARRAYS_12

static const broken_case broken[] = {
    {"", "90", 0, LAK_BAD_TUPLE, AT(0)},
    {"c1", "90", 0, LAK_BAD_TUPLE, AT(0)},
    {"92 01 c1", "c1", 7, LAK_BAD_TUPLE, AT(2)},
    {"92 01 a1", "90", 0, LAK_BAD_TUPLE, AT(3)},
    {"81 01 c1", "90", 0, LAK_BAD_TUPLE, AT(2)},
    {"dd ff ff ff ff 05", "90", 0, LAK_BAD_TUPLE, AT(6)},
    {"91 " ARRAYS_13, "90", 0, LAK_BAD_TUPLE, AT(13)},
    {"92 " ARRAYS_12 " " ARRAYS_13, "90", 0, LAK_BAD_TUPLE, AT(25)},
    {"81 00 " ARRAYS_12, "90", 0, LAK_BAD_TUPLE, NONE},
    {"81 00 " ARRAYS_13, "90", 0, LAK_BAD_TUPLE, AT(14)},
    {"91 01 c1", "c1", 0, LAK_BAD_TUPLE, NONE},
    {"c0", "c1", 0, LAK_BAD_TUPLE, NONE},
    {"91 01", "", 0, LAK_BAD_LIST, AT(0)},
    {"91 01", "c1", 0, LAK_BAD_LIST, AT(0)},
    {"91 01", "91 93 a1 3d 00 c1", 0, LAK_BAD_LIST, AT(5)},
    {"91 01", "91 93 a1 3d 00 c1", 7, LAK_BAD_LIST, AT(5)},
    {"91 01", "91 93 a1 3d 00", 0, LAK_BAD_LIST, AT(5)},
    {"91 01", "91 93 a1 3d 00 " ARRAYS_13, 0, LAK_BAD_LIST, AT(17)},
    {"91 01", "91 93 a1 2b 00 " ARRAYS_12, 0, LAK_BAD_LIST, NONE},
    {"91 01", "91 93 a1 2b 00 " ARRAYS_13, 0, LAK_BAD_LIST, AT(17)},
    {"91 01", "92 93 a1 2a 00 01 93 a1 3d 00 c1", 0, LAK_BAD_LIST, AT(10)},
    {"91 01", "92 93 a1 3d 00 c1 93 a1 2a 00 01", 0, LAK_BAD_LIST, AT(5)},
    {"91 01", "91 93 a1 2a 00 01", 0, LAK_BAD_LIST, NONE},
    {"91 01", "91 93 a1 3d 00 01 c1", 0, LAK_BAD_LIST, NONE},
    {"91 01", "90", 7, LAK_BAD_LIST, NONE},
};

/* The three calls on `first` and `second`. */
static void breaks(uint64_t base, uint32_t number, lak_number place, const char *what)
{
    lak_press_answer a = press(base, LAK_TUPLE_ROOM, LAK_UNDO_ROOM);
    hex(&wanted, "");
    expect(a.number == number && a.operation == 0 && a.length == 0 && a.undo_length == 0 &&
               same_number(a.place, place) && holds_these(out, &wanted) && holds_these(undo_out, &wanted),
           "lak_press, place", what);
    fresh();
    expect(broke(lak_update(first.at, first.n, second.at, second.n, base, out, LAK_TUPLE_ROOM), number, place),
           "lak_update, place", what);
    fresh();
    expect(broke(lak_undo(first.at, first.n, second.at, second.n, base, out, LAK_UNDO_ROOM), number, place),
           "lak_undo, place", what);
}

static void check_broken(void)
{
    size_t i;
    for (i = 0; i < sizeof broken / sizeof broken[0]; i++) {
        const broken_case *b = &broken[i];
        hex(&first, b->tuple);
        hex(&second, b->list);
        breaks(b->base, b->number, b->place, b->number == LAK_BAD_TUPLE ? b->tuple : b->list);
    }
}

/* An array or bin whose header is this, filled up with zeros to `n` bytes. */
static void filled(bytes *b, const char *header, size_t n)
{
    hex(b, header);
    memset(b->at + b->n, 0, n - b->n);
    b->n = n;
}

/* Too many and too long, with a last byte that is c1 or missing, and with nothing broken. */
static void check_broken_past_the_limits(void)
{
    const lak_number none = NONE, fields = AT(67), tuple = AT(16385), list = AT(32769);
    hex(&second, "91 c1");
    filled(&first, "dc 00 41", 68);
    breaks(7, LAK_BAD_TUPLE, none, "65 fields");
    first.at[67] = 0xc1;
    breaks(7, LAK_BAD_TUPLE, fields, "65 fields, c1 last");
    first.n = 67;
    breaks(7, LAK_BAD_TUPLE, fields, "65 fields, the last missing");
    filled(&first, "92 c5 3f fd", 16386);
    breaks(7, LAK_BAD_TUPLE, none, "a tuple too long");
    first.at[16385] = 0xc1;
    breaks(7, LAK_BAD_TUPLE, tuple, "a tuple too long, c1 last");
    first.n = 16385;
    breaks(7, LAK_BAD_TUPLE, tuple, "a tuple too long, the last field missing");
    hex(&first, "91 01");
    filled(&second, "92 93 a1 3d 00 c5 7f f9", 32770);
    breaks(0, LAK_BAD_LIST, none, "a list too long");
    second.at[32769] = 0xc1;
    breaks(7, LAK_BAD_LIST, list, "a list too long, c1 last");
    second.n = 32769;
    breaks(7, LAK_BAD_LIST, list, "a list too long, the last operation missing");
}

/* ---- the longest that is written */

static void check_longest_frame(void)
{
    filled(&first, "dc ea 56", 59993);
    fresh();
    expect(lak_frame_write(insert(1), first.at, first.n, out, LAK_FRAME_ROOM).length == LAK_FRAME_ROOM,
           "lak_frame_write", "longest");
    fresh();
    expect(gave(lak_frame_write(insert(1), first.at, first.n, out, LAK_FRAME_ROOM - 1), LAK_SHORT_BUFFER, 0, ""),
           "lak_frame_write", "longest, short");
    filled(&first, "dc ea 57", 59994);
    refuses(insert(1), LAK_BAD_SIZE, "one byte too long");
}

static void check_longest_tuple(void)
{
    hex(&second, "90");
    filled(&first, "91 c5 3f fc", 16384);
    fresh();
    expect(lak_update(first.at, first.n, second.at, second.n, 0, out, LAK_TUPLE_ROOM).length == LAK_TUPLE_ROOM,
           "lak_update", "longest");
    expect(press(0, LAK_TUPLE_ROOM, 1).length == LAK_TUPLE_ROOM && undo_out[0] == 0x90, "lak_press", "longest");
    expect(pressed(press(0, LAK_TUPLE_ROOM - 1, 1), LAK_SHORT_BUFFER, 0, "", ""), "lak_press", "longest, short");
    filled(&first, "91 c5 3f fd", 16385);
    fresh();
    expect(gave(lak_update(first.at, first.n, second.at, second.n, 0, out, LAK_TUPLE_ROOM), LAK_BAD_TUPLE, 0, ""),
           "lak_update", "one byte too long");
}

/* A field of 16,383 bytes is assigned twice; first a bin of the length that makes the undo list so long. */
static lak_answer long_undo(const char *list, size_t n)
{
    static const uint8_t assign_0[] = {0x93, 0xa1, 0x3d, 0x00, 0x00};
    filled(&first, "91 c5 3f fc", 16384);
    filled(&second, list, n);
    memcpy(second.at + second.n, assign_0, sizeof assign_0);
    second.n += sizeof assign_0;
    fresh();
    return lak_undo(first.at, first.n, second.at, second.n, 0, out, LAK_UNDO_ROOM);
}

static void check_longest_undo(void)
{
    lak_press_answer a;
    expect(long_undo("92 93 a1 3d 00 c5 3f f5", 5 + 16376).length == LAK_UNDO_ROOM, "lak_undo", "longest");
    a = press(0, LAK_TUPLE_ROOM, LAK_UNDO_ROOM);
    expect(a.number == LAK_OK && a.length == 2 && a.undo_length == LAK_UNDO_ROOM, "lak_press", "longest undo list");
    expect(pressed(press(0, LAK_TUPLE_ROOM, LAK_UNDO_ROOM - 1), LAK_SHORT_BUFFER, 0, "", ""), "lak_press",
           "longest undo list, short");
    expect(gave(long_undo("92 93 a1 3d 00 c5 3f f6", 5 + 16377), LAK_LONG_UNDO, 0, ""), "lak_undo",
           "one byte too long");
    expect(pressed(press(0, LAK_TUPLE_ROOM, LAK_UNDO_ROOM), LAK_LONG_UNDO, 0, "", ""), "lak_press",
           "an undo list one byte too long");
}

/* ---- a null pointer with length 0, and the words */

static void check_null(void)
{
    lak_frame ping = empty_frame();
    ping.code = LAK_CODE_PING;
    hex(&first, "91 01");
    hex(&second, "90");
    expect(lak_value_read(NULL, 0).number == LAK_BROKEN, "lak_value_read", "NULL");
    expect(lak_value_read(NULL, 0).place.present, "lak_value_read", "NULL, place");
    expect(lak_frame_read(NULL, 0).number == LAK_INCOMPLETE, "lak_frame_read", "NULL");
    expect(lak_frame_write(ping, NULL, 0, NULL, 0).number == LAK_SHORT_BUFFER, "lak_frame_write", "NULL");
    fresh();
    expect(gave(lak_frame_write(ping, NULL, 0, out, 9), LAK_OK, 0, "ce 00 00 00 04 81 00 40 80"), "lak_frame_write",
           "ping");
    expect(lak_update(NULL, 0, second.at, 1, 0, NULL, 0).number == LAK_BAD_TUPLE, "lak_update", "NULL tuple");
    expect(lak_update(first.at, 2, NULL, 0, 0, NULL, 0).number == LAK_BAD_LIST, "lak_update", "NULL list");
    expect(lak_update(first.at, 2, second.at, 1, 0, NULL, 0).number == LAK_SHORT_BUFFER, "lak_update", "NULL out");
    expect(lak_undo(NULL, 0, NULL, 0, 0, NULL, 0).number == LAK_BAD_TUPLE, "lak_undo", "NULL tuple");
    expect(lak_undo(first.at, 2, second.at, 1, 0, NULL, 0).number == LAK_SHORT_BUFFER, "lak_undo", "NULL out");
    expect(lak_press(NULL, 0, NULL, 0, 0, NULL, 0, NULL, 0).number == LAK_BAD_TUPLE, "lak_press", "NULL tuple");
    expect(lak_press(first.at, 2, NULL, 0, 0, NULL, 0, NULL, 0).number == LAK_BAD_LIST, "lak_press", "NULL list");
    expect(lak_press(first.at, 2, second.at, 1, 0, NULL, 0, NULL, 0).number == LAK_SHORT_BUFFER, "lak_press",
           "NULL out and undo");
}

static void check_words(void)
{
    uint32_t i, j;
    for (i = LAK_OK; i <= LAK_SHORT_CARRY; i++) {
        bool own = lak_words(i)[0] != 0;
        for (j = LAK_OK; j <= LAK_SHORT_CARRY + 1; j++)
            own = own && (i == j || strcmp(lak_words(i), lak_words(j)) != 0);
        expect(own, "lak_words", lak_words(i));
    }
    expect(strcmp(lak_words(LAK_OK), "accepted") == 0, "lak_words", "0");
    expect(strcmp(lak_words(LAK_SHORT_BUFFER), "the lent buffer is too short") == 0, "lak_words", "18");
    expect(strcmp(lak_words(LAK_SHORT_CARRY), "the carry buffer is under 60,009 bytes") == 0, "lak_words", "19");
    expect(strcmp(lak_words(LAK_SHORT_CARRY + 1), "no such number") == 0, "lak_words", "20");
    expect(strcmp(lak_words(UINT32_MAX), "no such number") == 0, "lak_words", "past 19");
}

int main(void)
{
    check_values();
    check_kinds();
    check_refused_frames();
    check_select();
    check_every_key();
    check_refused_writing();
    check_left_out();
    check_select_by_hand();
    check_updates();
    check_presses();
    check_taking_back();
    check_64_fields();
    check_broken();
    check_broken_past_the_limits();
    check_longest_frame();
    check_longest_tuple();
    check_longest_undo();
    check_null();
    check_words();
    printf("%d passed, %d failed\n", passed, failed);
    return failed != 0;
}
