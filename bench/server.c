/*
 * The server's own update on the same bytes, as a module that its Lua loads: the operations come as
 * MessagePack, as they do from the network, and no Lua runs inside the loop. It is not quite the same work:
 * the tuple was checked when it was made, `and new` does not check it either, and the answer is a tuple of
 * the server's in its own memory.
 */
#include <stdio.h>
#include <string.h>

#include <lua.h>
#include <module.h>

#include "plain_update.h"
#include "samples.h"
#include "timing.h"
#include "updates.h"

struct server_input {
    struct sample tuple, list;
    box_tuple_t *held;
};

static struct server_input input;

static const char *chars(const uint8_t *bytes)
{
    return (const char *)bytes;
}

static box_tuple_t *made(const struct sample *s)
{
    return box_tuple_new(box_tuple_format_default(), chars(s->bytes), chars(s->bytes + s->n));
}

static box_tuple_t *updated(box_tuple_t *tuple, const struct sample *list)
{
    return box_tuple_update(tuple, chars(list->bytes), chars(list->bytes + list->n));
}

/* An answer that nobody holds is kept by the server until the next one comes. */
static uint64_t update_held(void *server_input)
{
    struct server_input *in = server_input;
    return updated(in->held, &in->list) != NULL;
}

static uint64_t make_and_update(void *server_input)
{
    struct server_input *in = server_input;
    box_tuple_t *tuple = made(&in->tuple);
    box_tuple_ref(tuple);
    uint64_t done = updated(tuple, &in->list) != NULL;
    box_tuple_unref(tuple);
    return done;
}

/* Whether the server writes what plain C writes. */
static int same_bytes(void)
{
    static char theirs[SAMPLE_ROOM];
    static uint8_t plain[SAMPLE_ROOM];
    box_tuple_t *answer = updated(input.held, &input.list);
    if (!answer) {
        fprintf(stderr, "bench: the server refuses: %s\n", box_error_message(box_error_last()));
        return 0;
    }
    ssize_t n = box_tuple_to_buf(answer, theirs, sizeof theirs);
    const struct sample *t = &input.tuple, *l = &input.list;
    struct plain_answer p = plain_update(t->bytes, t->n, l->bytes, l->n, INDEX_BASE, plain, sizeof plain);
    return p.number == 0 && n == (ssize_t)p.length && !memcmp(theirs, plain, p.length);
}

static void measure(struct server_times *row)
{
    struct shape shape = shape_of(row->bytes);
    tuple_sample(&input.tuple, shape);
    list_sample(&input.list, shape, row->operations);
    input.held = made(&input.tuple);
    box_tuple_ref(input.held);
    if (same_bytes()) {
        struct contender c[2] = { { update_held, &input, 0, 0 }, { make_and_update, &input, 0, 0 } };
        race(c, 2);
        row->update = c[0].ns;
        row->made = c[1].ns;
    } else {
        fprintf(stderr, "bench: the server writes other bytes: %zu operations\n", row->operations);
    }
    box_tuple_unref(input.held);
}

/* server.measure(file) */
static int measure_all(struct lua_State *L)
{
    struct server_times rows[UPDATE_ROWS];
    update_rows(rows);
    for (size_t i = 0; i < UPDATE_ROWS; i++)
        measure(&rows[i]);
    write_server_times(lua_tostring(L, 1), rows);
    return 0;
}

LUA_API int luaopen_server(struct lua_State *L)
{
    lua_pushcfunction(L, measure_all);
    return 1;
}
