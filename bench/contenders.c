#include "contenders.h"

#include "plain_update.h"

#ifdef HAVE_MSGPUCK
#include <msgpuck.h>
#endif
#ifdef HAVE_MSGPACK
#include <msgpack.h>
#endif

uint64_t lak_values(void *sample)
{
    const struct sample *s = sample;
    size_t at = 0;
    while (at < s->n) {
        lak_value_answer a = lak_value_read(s->bytes + at, s->n - at);
        if (a.number)
            return at;
        at += a.length;
    }
    return at;
}

#ifdef HAVE_MSGPUCK
static uint64_t check_values(void *sample)
{
    const struct sample *s = sample;
    const char *start = (const char *)s->bytes, *end = start + s->n, *at = start;
    while (at < end)
        if (mp_check(&at, end))
            return 0;
    return (uint64_t)(at - start);
}

const bench_work msgpuck_values = check_values;
#else
const bench_work msgpuck_values = NULL;
#endif

#ifdef HAVE_MSGPACK
/* One zone for all calls, emptied after each: the least that it asks for. */
static uint64_t unpack_values(void *sample)
{
    static msgpack_zone *zone;
    const struct sample *s = sample;
    size_t at = 0;
    if (!zone)
        zone = msgpack_zone_new(MSGPACK_ZONE_CHUNK_SIZE);
    while (at < s->n) {
        msgpack_object object;
        int r = msgpack_unpack((const char *)s->bytes, s->n, &at, zone, &object);
        msgpack_zone_clear(zone);
        if (r != MSGPACK_UNPACK_SUCCESS && r != MSGPACK_UNPACK_EXTRA_BYTES)
            return 0;
    }
    return at;
}

const bench_work msgpack_values = unpack_values;
#else
const bench_work msgpack_values = NULL;
#endif

uint64_t lak_frame_reading(void *frame_input)
{
    struct frame_input *f = frame_input;
    lak_frame_answer a = lak_frame_read(f->bytes->bytes, f->bytes->n);
    return a.length + a.frame.code;
}

uint64_t lak_frame_writing(void *frame_input)
{
    struct frame_input *f = frame_input;
    return lak_frame_write(f->record, f->bytes->bytes, f->bytes->n, f->out, sizeof f->out).length;
}

uint64_t msgpuck_frame(void *frame_input)
{
    struct frame_input *f = frame_input;
    return msgpuck_values(f->bytes);
}

uint64_t lak_feeding(void *line_input)
{
    struct line_input *l = line_input;
    const struct sample *s = l->bytes;
    lak_session session = lak_session_reset();
    size_t at = 0;
    while (at < s->n) {
        size_t n = s->n - at < l->piece ? s->n - at : l->piece;
        lak_session_answer a = lak_session_feed(session, s->bytes + at, n, l->carry, sizeof l->carry);
        if (a.number > LAK_INCOMPLETE)
            return 0;
        session = a.session;
        at += a.taken;
    }
    return session.offset;
}

uint64_t lak_opening(void *line_input)
{
    struct line_input *l = line_input;
    return lak_session_open(l->carry, sizeof l->carry).number;
}

uint64_t lak_resetting(void *line_input)
{
    struct line_input *l = line_input;
    return lak_session_reset().offset + l->piece;
}

uint64_t lak_updating(void *update_input)
{
    struct update_input *u = update_input;
    return lak_update(u->tuple.bytes, u->tuple.n, u->list.bytes, u->list.n, INDEX_BASE, u->out, sizeof u->out)
        .length;
}

uint64_t lak_undoing(void *update_input)
{
    struct update_input *u = update_input;
    return lak_undo(u->tuple.bytes, u->tuple.n, u->list.bytes, u->list.n, INDEX_BASE, u->out, sizeof u->out)
        .length;
}

uint64_t lak_pressing(void *update_input)
{
    struct update_input *u = update_input;
    lak_press_answer a = lak_press(u->tuple.bytes, u->tuple.n, u->list.bytes, u->list.n, INDEX_BASE, u->out,
                                   sizeof u->out, u->undo, sizeof u->undo);
    return a.length + a.undo_length;
}

uint64_t lak_updating_and_undoing(void *update_input)
{
    struct update_input *u = update_input;
    return lak_updating(u) + lak_undo(u->tuple.bytes, u->tuple.n, u->list.bytes, u->list.n, INDEX_BASE, u->undo,
                                      sizeof u->undo)
                                 .length;
}

uint64_t plain_updating(void *update_input)
{
    struct update_input *u = update_input;
    return plain_update(u->tuple.bytes, u->tuple.n, u->list.bytes, u->list.n, INDEX_BASE, u->out,
                        sizeof u->out)
        .length;
}

uint64_t plain_undoing(void *update_input)
{
    struct update_input *u = update_input;
    return plain_undo(u->tuple.bytes, u->tuple.n, u->list.bytes, u->list.n, INDEX_BASE, u->out, sizeof u->out)
        .length;
}

uint64_t plain_pressing(void *update_input)
{
    struct update_input *u = update_input;
    struct plain_press_answer a = plain_press(u->tuple.bytes, u->tuple.n, u->list.bytes, u->list.n, INDEX_BASE,
                                              u->out, sizeof u->out, u->undo, sizeof u->undo);
    return a.length + a.undo_length;
}
