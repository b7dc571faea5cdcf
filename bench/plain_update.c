/* A field is a place: where its bytes stand. The operations change a table of places, computed numbers and
 * spliced strings are put into a work array, and the result is gathered once, after all is judged. */
#include "plain_update.h"

#include <stdbool.h>
#include <string.h>

enum {
    MAX_FIELDS = 64,
    MAX_TUPLE = 16384,
    FIELD_DEPTH = 12,
    MAX_OPERATIONS = 64,
    MAX_LIST = 32768,
};

enum {
    DONE = 0,
    BAD_TUPLE = 11,
    BAD_LIST = 12,
    NO_FIELD = 13,
    UNSUITED = 14,
    OUT_OF_RANGE = 15,
    TOO_LARGE = 16,
    LONG_UNDO = 17,
    SHORT_BUFFER = 18,
};

/* ---- MessagePack ---- */

struct span {
    const uint8_t *at, *end;
};

/* An integer from -2^63 to 2^64-1: `low` is its value modulo 2^64. */
struct integer {
    bool negative;
    uint64_t low;
};

static size_t left(struct span s)
{
    return (size_t)(s.end - s.at);
}

static uint64_t big_endian(const uint8_t *p, size_t width)
{
    uint64_t n = 0;
    for (size_t i = 0; i < width; i++)
        n = n << 8 | p[i];
    return n;
}

/* A number of `width` bytes, passed over. */
static bool take_number(struct span *s, size_t width, uint64_t *n)
{
    if (left(*s) < width)
        return false;
    *n = big_endian(s->at, width);
    s->at += width;
    return true;
}

static bool pass_bytes(struct span *s, uint64_t n)
{
    if (left(*s) < n)
        return false;
    s->at += n;
    return true;
}

static bool pass_sized(struct span *s, size_t width, uint64_t more)
{
    uint64_t n;
    return take_number(s, width, &n) && pass_bytes(s, n + more);
}

static bool pass_value(struct span *s, int depth);

static bool pass_values(struct span *s, uint64_t n, int depth)
{
    if (depth == 0)
        return false;
    while (n-- > 0)
        if (!pass_value(s, depth - 1))
            return false;
    return true;
}

static bool pass_counted(struct span *s, size_t width, unsigned per, int depth)
{
    uint64_t n;
    return take_number(s, width, &n) && pass_values(s, n * per, depth);
}

/* One value, at most so deep. */
static bool pass_value(struct span *s, int depth)
{
    if (s->at == s->end)
        return false;
    uint8_t b = *s->at++;
    if (b < 0x80 || b >= 0xe0)
        return true;
    if (b < 0x90)
        return pass_values(s, 2 * (b & 15), depth);
    if (b < 0xa0)
        return pass_values(s, b & 15, depth);
    if (b < 0xc0)
        return pass_bytes(s, b & 31);
    switch (b) {
    case 0xc0:
    case 0xc2:
    case 0xc3:
        return true;
    case 0xc4:
    case 0xd9:
        return pass_sized(s, 1, 0);
    case 0xc5:
    case 0xda:
        return pass_sized(s, 2, 0);
    case 0xc6:
    case 0xdb:
        return pass_sized(s, 4, 0);
    case 0xc7:
    case 0xc8:
    case 0xc9:
        return pass_sized(s, (size_t)1 << (b - 0xc7), 1);
    case 0xca:
        return pass_bytes(s, 4);
    case 0xcb:
        return pass_bytes(s, 8);
    case 0xcc:
    case 0xcd:
    case 0xce:
    case 0xcf:
        return pass_bytes(s, (uint64_t)1 << (b - 0xcc));
    case 0xd0:
    case 0xd1:
    case 0xd2:
    case 0xd3:
        return pass_bytes(s, (uint64_t)1 << (b - 0xd0));
    case 0xd4:
    case 0xd5:
    case 0xd6:
    case 0xd7:
    case 0xd8:
        return pass_bytes(s, 1 + ((uint64_t)1 << (b - 0xd4)));
    case 0xdc:
    case 0xdd:
        return pass_counted(s, b == 0xdc ? 2 : 4, 1, depth);
    case 0xde:
    case 0xdf:
        return pass_counted(s, b == 0xde ? 2 : 4, 2, depth);
    default:
        return false;
    }
}

static bool take_integer(struct span *s, struct integer *z)
{
    if (s->at == s->end)
        return false;
    uint8_t b = *s->at++;
    if (b < 0x80 || b >= 0xe0) {
        z->negative = b >= 0xe0;
        z->low = (uint64_t)(int8_t)b;
        return true;
    }
    if (b < 0xcc || b > 0xd3)
        return false;
    size_t width = (size_t)1 << (b & 3);
    if (!take_number(s, width, &z->low))
        return false;
    z->negative = b >= 0xd0 && z->low >> (8 * width - 1);
    if (z->negative && width < 8)
        z->low |= ~(uint64_t)0 << (8 * width);
    return true;
}

static bool take_natural(struct span *s, uint64_t *n)
{
    struct integer z;
    if (!take_integer(s, &z) || z.negative)
        return false;
    *n = z.low;
    return true;
}

static bool take_array(struct span *s, uint64_t *n)
{
    if (s->at == s->end)
        return false;
    uint8_t b = *s->at++;
    if ((b & 0xf0) == 0x90) {
        *n = b & 15;
        return true;
    }
    return (b == 0xdc || b == 0xdd) && take_number(s, b == 0xdc ? 2 : 4, n);
}

/* A string's content. */
static bool take_string(struct span *s, struct span *content)
{
    uint64_t n;
    if (s->at == s->end)
        return false;
    uint8_t b = *s->at++;
    if ((b & 0xe0) == 0xa0)
        n = b & 31;
    else if (b < 0xd9 || b > 0xdb || !take_number(s, (size_t)1 << (b - 0xd9), &n))
        return false;
    content->at = s->at;
    if (!pass_bytes(s, n))
        return false;
    content->end = s->at;
    return true;
}

static size_t put_tagged(uint8_t *out, unsigned tag, uint64_t n, size_t width)
{
    out[0] = (uint8_t)tag;
    for (size_t i = 0; i < width; i++)
        out[1 + i] = (uint8_t)(n >> (8 * (width - 1 - i)));
    return 1 + width;
}

static size_t put_natural(uint8_t *out, uint64_t n)
{
    if (n < 0x80)
        return put_tagged(out, (unsigned)n, 0, 0);
    if (n < 0x100)
        return put_tagged(out, 0xcc, n, 1);
    if (n < 0x10000)
        return put_tagged(out, 0xcd, n, 2);
    if (n < 0x100000000)
        return put_tagged(out, 0xce, n, 4);
    return put_tagged(out, 0xcf, n, 8);
}

static size_t put_integer(uint8_t *out, struct integer z)
{
    if (!z.negative)
        return put_natural(out, z.low);
    int64_t v = (int64_t)z.low;
    if (v >= -32)
        return put_tagged(out, (unsigned)v & 0xff, 0, 0);
    if (v >= INT8_MIN)
        return put_tagged(out, 0xd0, z.low, 1);
    if (v >= INT16_MIN)
        return put_tagged(out, 0xd1, z.low, 2);
    if (v >= INT32_MIN)
        return put_tagged(out, 0xd2, z.low, 4);
    return put_tagged(out, 0xd3, z.low, 8);
}

static size_t put_string_header(uint8_t *out, size_t n)
{
    if (n < 32)
        return put_tagged(out, 0xa0 + (unsigned)n, 0, 0);
    if (n < 0x100)
        return put_tagged(out, 0xd9, n, 1);
    return put_tagged(out, 0xda, n, 2);
}

static size_t array_header_length(size_t n)
{
    return n < 16 ? 1 : 3;
}

static size_t put_array_header(uint8_t *out, size_t n)
{
    return n < 16 ? put_tagged(out, 0x90 + (unsigned)n, 0, 0) : put_tagged(out, 0xdc, n, 2);
}

/* ---- the list ---- */

struct operation {
    uint8_t mark;
    struct integer field;     /* as it was sent */
    struct integer number;    /* the argument of + - & ^ | # */
    uint64_t position, count; /* of a splice */
    struct span bytes;        /* the argument of = and !, the content of a splice's */
};

static bool take_argument(struct span *s, struct operation *o, uint64_t base)
{
    uint64_t position;
    switch (o->mark) {
    case '+':
    case '-':
        return take_integer(s, &o->number);
    case '&':
    case '^':
    case '|':
        return take_integer(s, &o->number) && !o->number.negative;
    case '#':
        return take_integer(s, &o->number) && !o->number.negative && o->number.low >= 1;
    case '=':
    case '!':
        o->bytes.at = s->at;
        if (!pass_value(s, FIELD_DEPTH))
            return false;
        o->bytes.end = s->at;
        return true;
    case ':':
        if (!take_natural(s, &position) || position < base)
            return false;
        o->position = position - base;
        return take_natural(s, &o->count) && take_string(s, &o->bytes);
    default:
        return false;
    }
}

static bool take_operation(struct span *s, struct operation *o, uint64_t base)
{
    uint64_t parts;
    if (!take_array(s, &parts) || left(*s) < 2 || s->at[0] != 0xa1)
        return false;
    o->mark = s->at[1];
    s->at += 2;
    if (parts != (o->mark == ':' ? 5 : 3))
        return false;
    return take_integer(s, &o->field) && take_argument(s, o, base);
}

/* ---- the fields: a table of places with free entries on both sides ---- */

/* Places side by side in one source are copied at once. */
enum source { TUPLE, LIST, WORK, SPARE };

struct place {
    const uint8_t *at;
    uint32_t n, source;
};

struct table {
    size_t head, fields, bytes;
    size_t low, tail; /* the first and last fields that lie side by side, as they were loaded */
    struct place entries[MAX_FIELDS + 2 * MAX_OPERATIONS];
};

static struct place *field_at(struct table *t, size_t f)
{
    return &t->entries[t->head + f];
}

static struct span bytes_of(const struct place *p)
{
    struct span s = {p->at, p->at + p->n};
    return s;
}

static void set_place(struct place *p, struct span s, enum source source)
{
    p->at = s.at;
    p->n = (uint32_t)left(s);
    p->source = source;
}

static bool take_tuple(struct span s, struct table *t)
{
    uint64_t n;
    if (left(s) > MAX_TUPLE || !take_array(&s, &n) || n > MAX_FIELDS)
        return false;
    t->head = MAX_OPERATIONS;
    t->fields = t->low = t->tail = n;
    t->bytes = left(s);
    for (size_t i = 0; i < n; i++) {
        struct span field = s;
        if (!pass_value(&s, FIELD_DEPTH))
            return false;
        field.end = s.at;
        set_place(field_at(t, i), field, TUPLE);
    }
    return s.at == s.end;
}

static bool fits(size_t fields, size_t bytes)
{
    return fields <= MAX_FIELDS && array_header_length(fields) + bytes <= MAX_TUPLE;
}

/* From f on, `gone` fields are no longer as they were loaded. */
static void touch(struct table *t, size_t f, size_t gone)
{
    size_t behind = t->fields - f - gone;
    t->low = f < t->low ? f : t->low;
    t->tail = behind < t->tail ? behind : t->tail;
}

static void put_in(struct table *t, size_t f, struct span s, enum source source)
{
    struct place *front = field_at(t, 0), *at = field_at(t, f);
    size_t behind = t->fields - f;
    touch(t, f, 0);
    if (f < behind) { /* the fewer move */
        memmove(front - 1, front, f * sizeof *front);
        t->head--;
        at--;
    } else {
        memmove(at + 1, at, behind * sizeof *at);
    }
    set_place(at, s, source);
    t->fields++;
    t->bytes += left(s);
}

static size_t bytes_in(const struct place *p, size_t n)
{
    size_t bytes = 0;
    for (size_t i = 0; i < n; i++)
        bytes += p[i].n;
    return bytes;
}

static void take_out(struct table *t, size_t f, size_t gone)
{
    struct place *front = field_at(t, 0), *at = field_at(t, f);
    size_t behind = t->fields - f - gone;
    touch(t, f, gone);
    t->bytes -= bytes_in(at, gone);
    if (f < behind) {
        memmove(front + gone, front, f * sizeof *front);
        t->head += gone;
    } else {
        memmove(at, at + gone, behind * sizeof *at);
    }
    t->fields -= gone;
}

static void exchange(struct table *t, size_t f, struct span s, enum source source)
{
    struct place *at = field_at(t, f);
    touch(t, f, 1);
    t->bytes = t->bytes - at->n + left(s);
    set_place(at, s, source);
}

/* ---- gathering ---- */

/* Places that are known to lie side by side. */
static uint8_t *gather_run(const struct place *p, size_t n, uint8_t *out)
{
    if (n == 0)
        return out;
    size_t bytes = (size_t)(p[n - 1].at + p[n - 1].n - p[0].at);
    memcpy(out, p[0].at, bytes);
    return out + bytes;
}

static uint8_t *gather_runs(const struct place *p, size_t n, uint8_t *out)
{
    size_t from = 0;
    for (size_t i = 1; i <= n; i++)
        if (i == n || p[i].source != p[i - 1].source || p[i].at != p[i - 1].at + p[i - 1].n) {
            out = gather_run(p + from, i - from, out);
            from = i;
        }
    return out;
}

static void gather(struct table *t, uint8_t *out)
{
    size_t low = t->low, tail = t->tail < t->fields - low ? t->tail : t->fields - low;
    out = gather_run(field_at(t, 0), low, out);
    out = gather_runs(field_at(t, low), t->fields - low - tail, out);
    gather_run(field_at(t, t->fields - tail), tail, out);
}

/* ---- the work array, which is only added to ---- */

enum { WORK_ROOM = MAX_TUPLE + MAX_LIST };

struct work {
    size_t used, spare;
    uint8_t log[WORK_ROOM];
    uint8_t spares[2][MAX_TUPLE];
};

/* Room for n bytes more. Where there is none, the fields are gathered into the spare array that does not hold them. The
 * old fields of an undo list are lost, but it is too long then: whatever was made is in the tuple or in that list. */
static uint8_t *room_for(struct work *w, struct table *t, size_t n)
{
    if (WORK_ROOM - w->used < n) {
        uint8_t *at = w->spares[w->spare];
        w->spare ^= 1;
        w->used = 0;
        gather(t, at);
        for (size_t i = 0; i < t->fields; i++) {
            struct place *p = field_at(t, i);
            p->at = at;
            p->source = SPARE;
            at += p->n;
        }
        t->low = t->tail = t->fields;
    }
    return w->log + w->used;
}

/* ---- the undo list: what takes each operation back ---- */

struct entry {
    uint8_t mark, f; /* below 128 */
    struct place old;
};

struct undo {
    size_t operations, bytes;
    struct entry entries[MAX_OPERATIONS];
};

static void lay(struct undo *u, char mark, size_t f, const struct place *old)
{
    if (u->operations < MAX_OPERATIONS) {
        struct entry *e = &u->entries[u->operations];
        e->mark = (uint8_t)mark;
        e->f = (uint8_t)f;
        e->old = *old;
    }
    u->operations++;
    u->bytes += 4 + old->n;
}

/* Before `gone` fields from f on are exchanged or taken out, or a field is put in where none goes. */
static void lay_inverse(struct undo *u, struct table *t, char mark, size_t f, size_t gone)
{
    static const uint8_t one_byte = 1;
    static const struct place one = {&one_byte, 1, LIST};
    if (!u)
        return;
    if (gone == 0)
        lay(u, '#', f, &one);
    for (size_t i = 0; i < gone; i++)
        lay(u, mark == '#' ? '!' : '=', f, field_at(t, f + i));
}

static bool too_long(const struct undo *u)
{
    return u->operations > MAX_OPERATIONS || array_header_length(u->operations) + u->bytes > MAX_LIST;
}

/* ---- operations ---- */

static int add(struct integer z, struct integer v, struct integer *sum)
{
    sum->low = z.low + v.low;
    if (z.negative != v.negative) {
        /* Between the two, so in range. It is below 0 exactly where the one from 0 up is the smaller. */
        uint64_t up = z.negative ? v.low : z.low, down = z.negative ? z.low : v.low;
        sum->negative = up < -down;
        return DONE;
    }
    sum->negative = z.negative;
    if (z.negative)
        return (int64_t)sum->low < 0 ? DONE : OUT_OF_RANGE;
    return sum->low >= z.low ? DONE : OUT_OF_RANGE;
}

static int subtract(struct integer z, struct integer v, struct integer *difference)
{
    difference->low = z.low - v.low;
    if (z.negative == v.negative) {
        difference->negative = z.low < v.low;
        if (z.negative || !difference->negative)
            return DONE;
        return (int64_t)difference->low < 0 ? DONE : OUT_OF_RANGE;
    }
    difference->negative = z.negative;
    if (z.negative)
        return v.low <= (uint64_t)INT64_MAX + 1 && (int64_t)difference->low < 0 ? DONE : OUT_OF_RANGE;
    return difference->low > z.low ? DONE : OUT_OF_RANGE;
}

static int compute(const struct operation *o, struct span field, struct integer *z)
{
    struct integer old, v = o->number;
    if (!take_integer(&field, &old))
        return UNSUITED;
    if (o->mark == '+')
        return add(old, v, z);
    if (o->mark == '-')
        return subtract(old, v, z);
    if (old.negative)
        return UNSUITED;
    z->negative = false;
    z->low = o->mark == '&' ? old.low & v.low : o->mark == '^' ? old.low ^ v.low : old.low | v.low;
    return DONE;
}

/* How many bytes of a string a splice keeps in front and behind. */
struct kept {
    size_t front, back;
};

static struct kept kept_of(const struct operation *o, struct span s)
{
    struct kept k;
    k.front = o->position < left(s) ? o->position : left(s);
    size_t rest = left(s) - k.front;
    k.back = o->count < rest ? rest - o->count : 0;
    return k;
}

static uint8_t *put_bytes(uint8_t *out, const uint8_t *bytes, size_t n)
{
    memcpy(out, bytes, n);
    return out + n;
}

/* The new string at the end of the work array. */
static int splice(const struct operation *o, struct table *t, size_t f, struct work *w, struct span *made)
{
    uint8_t header[3];
    struct span s, field = bytes_of(field_at(t, f));
    if (!take_string(&field, &s))
        return UNSUITED;
    struct kept k = kept_of(o, s);
    size_t length = k.front + left(o->bytes) + k.back;
    if (length > MAX_TUPLE)
        return TOO_LARGE;
    size_t n = put_string_header(header, length);
    if (!fits(t->fields, t->bytes - field_at(t, f)->n + n + length))
        return TOO_LARGE;
    uint8_t *at = room_for(w, t, n + length);
    field = bytes_of(field_at(t, f)); /* it may have been moved */
    take_string(&field, &s);
    made->at = at;
    at = put_bytes(at, header, n);
    at = put_bytes(at, s.at, k.front);
    at = put_bytes(at, o->bytes.at, left(o->bytes));
    made->end = put_bytes(at, s.end - k.back, k.back);
    return DONE;
}

/* The new number there. */
static int number(const struct operation *o, struct table *t, size_t f, struct work *w, struct span *made)
{
    struct integer z;
    int refusal = compute(o, bytes_of(field_at(t, f)), &z);
    if (refusal != DONE)
        return refusal;
    uint8_t *at = room_for(w, t, 9);
    made->at = at;
    made->end = at + put_integer(at, z);
    return fits(t->fields, t->bytes - field_at(t, f)->n + left(*made)) ? DONE : TOO_LARGE;
}

static int alter(const struct operation *o, struct table *t, size_t f, struct work *w, struct undo *u)
{
    struct span made;
    int refusal = o->mark == ':' ? splice(o, t, f, w, &made) : number(o, t, f, w, &made);
    if (refusal != DONE)
        return refusal;
    lay_inverse(u, t, '=', f, 1);
    exchange(t, f, made, WORK);
    w->used += left(made);
    return DONE;
}

/* = and !, which take their argument as it stands in the list. */
static int assign(const struct operation *o, struct table *t, size_t f, struct undo *u)
{
    bool there = o->mark == '=' && f < t->fields;
    size_t gone = there ? field_at(t, f)->n : 0;
    if (!fits(t->fields + !there, t->bytes - gone + left(o->bytes)))
        return TOO_LARGE;
    lay_inverse(u, t, '=', f, there);
    if (there)
        exchange(t, f, o->bytes, LIST);
    else
        put_in(t, f, o->bytes, LIST);
    return DONE;
}

static int delete (const struct operation *o, struct table *t, size_t f, struct undo *u)
{
    size_t gone = o->number.low < t->fields - f ? o->number.low : t->fields - f;
    lay_inverse(u, t, '#', f, gone);
    take_out(t, f, gone);
    return DONE;
}

static int perform(const struct operation *o, uint64_t base, struct table *t, struct work *w, struct undo *u)
{
    if (o->field.negative || o->field.low < base)
        return NO_FIELD;
    uint64_t f = o->field.low - base;
    if (f > t->fields || (f == t->fields && o->mark != '=' && o->mark != '!'))
        return NO_FIELD;
    if (o->mark == '=' || o->mark == '!')
        return assign(o, t, f, u);
    return o->mark == '#' ? delete (o, t, f, u) : alter(o, t, f, w, u);
}

/* ---- the calls ---- */

static struct plain_answer refused(int number, size_t operation)
{
    struct plain_answer a = {(uint32_t)number, (uint32_t)operation, 0};
    return a;
}

/* Each operation is read and performed in one turn; after a refused one the rest of the list is judged only. */
static struct plain_answer run_list(struct span s, uint64_t base, struct table *t, struct work *w, struct undo *u)
{
    uint64_t count;
    size_t last = 0;
    int refusal = DONE;
    if (base > 1 || left(s) > MAX_LIST || !take_array(&s, &count) || count > MAX_OPERATIONS)
        return refused(BAD_LIST, 0);
    for (size_t i = 0; i < count; i++) {
        struct operation o;
        if (!take_operation(&s, &o, base))
            return refused(BAD_LIST, 0);
        if (refusal != DONE)
            continue;
        last = i;
        refusal = perform(&o, base, t, w, u);
    }
    return s.at != s.end ? refused(BAD_LIST, 0) : refused(refusal, refusal == DONE ? 0 : last);
}

static struct plain_answer run(struct span tuple, struct span list, uint64_t base, struct table *t, struct work *w,
                               struct undo *u)
{
    w->used = w->spare = 0;
    if (u)
        u->operations = u->bytes = 0;
    return take_tuple(tuple, t) ? run_list(list, base, t, w, u) : refused(BAD_TUPLE, 0);
}

static size_t write_tuple(struct table *t, uint8_t *out)
{
    size_t header = put_array_header(out, t->fields);
    gather(t, out + header);
    return header + t->bytes;
}

/* What was done last is taken back first. */
static size_t write_undo(const struct undo *u, uint8_t *out)
{
    uint8_t *at = out + put_array_header(out, u->operations);
    for (size_t i = u->operations; i-- > 0;) {
        const struct entry *e = &u->entries[i];
        const uint8_t opening[4] = {0x93, 0xa1, e->mark, e->f};
        at = put_bytes(at, opening, sizeof opening);
        at = put_bytes(at, e->old.at, e->old.n);
    }
    return (size_t)(at - out);
}

struct plain_answer plain_update(const uint8_t *tuple, size_t n, const uint8_t *list, size_t m, uint64_t base,
                                 uint8_t *out, size_t room)
{
    struct table t;
    struct work w;
    struct span from = {tuple, tuple + n}, by = {list, list + m};
    struct plain_answer a = run(from, by, base, &t, &w, NULL);
    if (a.number)
        return a;
    if (room < array_header_length(t.fields) + t.bytes)
        return refused(SHORT_BUFFER, 0);
    a.length = write_tuple(&t, out);
    return a;
}

struct plain_answer plain_undo(const uint8_t *tuple, size_t n, const uint8_t *list, size_t m, uint64_t base,
                               uint8_t *out, size_t room)
{
    struct table t;
    struct work w;
    struct undo u;
    struct span from = {tuple, tuple + n}, by = {list, list + m};
    struct plain_answer a = run(from, by, base, &t, &w, &u);
    if (a.number)
        return a;
    if (too_long(&u))
        return refused(LONG_UNDO, 0);
    if (room < array_header_length(u.operations) + u.bytes)
        return refused(SHORT_BUFFER, 0);
    a.length = write_undo(&u, out);
    return a;
}

static struct plain_press_answer press_refused(struct plain_answer a)
{
    struct plain_press_answer p = {a.number, a.operation, 0, 0};
    return p;
}

struct plain_press_answer plain_press(const uint8_t *tuple, size_t n, const uint8_t *list, size_t m, uint64_t base,
                                      uint8_t *out, size_t room, uint8_t *undo, size_t undo_room)
{
    struct table t;
    struct work w;
    struct undo u;
    struct span from = {tuple, tuple + n}, by = {list, list + m};
    struct plain_answer a = run(from, by, base, &t, &w, &u);
    struct plain_press_answer p = press_refused(a);
    if (a.number)
        return p;
    if (too_long(&u))
        return press_refused(refused(LONG_UNDO, 0));
    if (room < array_header_length(t.fields) + t.bytes || undo_room < array_header_length(u.operations) + u.bytes)
        return press_refused(refused(SHORT_BUFFER, 0));
    p.length = write_tuple(&t, out);
    p.undo_length = write_undo(&u, undo);
    return p;
}
