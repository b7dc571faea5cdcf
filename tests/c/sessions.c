/* Sessions against the library, step by step: what each feed answers, the session that it leaves, and
 * the whole carry buffer after it. Valid C99 and C++11; the last line is `N passed, M failed`. */
#include "testing.h"

HOLDS(session, sizeof(lak_session) == 40 && offsetof(lak_session, held) == 8 && offsetof(lak_session, refused) == 16);
HOLDS(session_place, offsetof(lak_session, place) == 24);
HOLDS(opening, sizeof(lak_session_opening) == 48 && offsetof(lak_session_opening, session) == 8);
HOLDS(answer, sizeof(lak_session_answer) == 88 + sizeof(lak_frame) && offsetof(lak_session_answer, in_carry) == 4);
HOLDS(counts, offsetof(lak_session_answer, taken) == 8 && offsetof(lak_session_answer, offset) == 16);
HOLDS(shown, offsetof(lak_session_answer, length) == 24 && offsetof(lak_session_answer, frame) == 32);
HOLDS(left, offsetof(lak_session_answer, session) == 32 + sizeof(lak_frame));
HOLDS(place, offsetof(lak_session_answer, place) == 72 + sizeof(lak_frame));

/* ---- one feed */

/* The bytes past LAK_CARRY_ROOM are lent only where a check says so. */
static uint8_t carry[LAK_CARRY_ROOM + 100];
static bytes piece, begun;

/* A piece, what its feed answers, and what stands at the carry buffer's start after it. The answer's place is that of
 * the session that is left. */
typedef struct {
    const char *piece;
    uint32_t number;
    bool in_carry;
    uint64_t taken, offset, length;
    lak_session left;
    const char *carry;
} step;

/* The carry buffer begins with these bytes and is else filled. */
static void fill(const char *text)
{
    hex(&begun, text);
    memset(carry, 0x5a, sizeof carry);
    memcpy(carry, begun.at, begun.n);
}

/* Whether it begins with these, and all other bytes are as they were filled. */
static bool carries(const char *text)
{
    size_t i;
    hex(&begun, text);
    for (i = begun.n; i < sizeof carry; i++)
        if (carry[i] != 0x5a)
            return false;
    return memcmp(carry, begun.at, begun.n) == 0;
}

static bool same_session(lak_session a, lak_session b)
{
    return a.offset == b.offset && a.held == b.held && a.refused == b.refused && same_number(a.place, b.place);
}

static bool same_place(lak_place a, lak_place b)
{
    return a.present == b.present && a.start == b.start && a.length == b.length;
}

/* Refused or not settled, the record is empty; else it is the one of the shown bytes read alone. */
static bool right_record(const lak_session_answer *a, const uint8_t *given)
{
    lak_frame_answer read;
    if (a->number != LAK_OK)
        return is_empty(a->frame) && !a->in_carry;
    read = lak_frame_read(lak_session_shown(a, given, carry), a->length);
    return read.number == LAK_OK && read.length == a->length && read.frame.code == a->frame.code &&
           same_number(read.frame.sync, a->frame.sync) && same_number(read.frame.space, a->frame.space) &&
           same_place(read.frame.key, a->frame.key) && same_place(read.frame.error, a->frame.error);
}

static lak_session feed(lak_session session, const step *s, const char *what)
{
    lak_session_answer a;
    hex(&piece, s->piece);
    a = lak_session_feed(session, piece.at, piece.n, carry, LAK_CARRY_ROOM);
    expect(a.number == s->number && a.in_carry == s->in_carry && a.length == s->length, what, s->piece);
    expect(a.taken == s->taken && a.offset == s->offset, what, "taken and offset");
    expect(right_record(&a, piece.at), what, "the record");
    expect(same_session(a.session, s->left), what, "the session that is left");
    expect(same_number(a.place, s->left.place), what, "the place");
    expect(carries(s->carry), what, "the carry buffer");
    return a.session;
}

/* A carry buffer that begins so, a session, and one feed after the other. */
static void feeds(const char *what, const char *start, lak_session session, const step *steps, size_t n)
{
    size_t i;
    fill(start);
    for (i = 0; i < n; i++)
        session = feed(session, &steps[i], what);
}

#define FEEDS(steps) feeds(#steps, "", lak_session_reset(), steps, sizeof steps / sizeof steps[0])
#define FORGED(steps, start, session) feeds(#steps, start, session, steps, sizeof steps / sizeof steps[0])

static lak_session forged(uint64_t offset, uint64_t held, uint32_t refused)
{
    lak_session s;
    s.offset = offset;
    s.held = held;
    s.refused = refused;
    s.place.present = false;
    s.place.value = 0;
    return s;
}

/* The same with a place; and with a value where there is none. */
static lak_session forged_at(uint64_t offset, uint64_t held, uint32_t refused, uint64_t place)
{
    lak_session s = forged(offset, held, refused);
    s.place.present = true;
    s.place.value = place;
    return s;
}

static lak_session absent_at(uint64_t offset, uint64_t held, uint32_t refused, uint64_t place)
{
    lak_session s = forged_at(offset, held, refused, place);
    s.place.present = false;
    return s;
}

/* ---- frames: a ping of 6 bytes, an ok of 4, a select of 18 */

#define PING "05 82 00 40 01 07"
#define OK_FRAME "03 81 00 00"
#define SELECT "11 81 00 01 86 10 01 11 02 12 03 13 04 14 05 20 91 06"

static const step in_one_piece[] = {
    {PING, LAK_OK, false, 6, 0, 6, {6, 0, 0, NONE}, ""},
    {SELECT, LAK_OK, false, 18, 6, 18, {24, 0, 0, NONE}, ""},
};

static const step cut_in_three[] = {
    {"05 82", LAK_INCOMPLETE, false, 2, 0, 0, {0, 2, 0, NONE}, "05 82"},
    {"00", LAK_INCOMPLETE, false, 1, 0, 0, {0, 3, 0, NONE}, "05 82 00"},
    {"40 01 07 03 81", LAK_OK, true, 3, 0, 6, {6, 0, 0, NONE}, PING},
    {"03 81", LAK_INCOMPLETE, false, 2, 6, 0, {6, 2, 0, NONE}, "03 81 00 40 01 07"},
    {"00 00 " OK_FRAME, LAK_OK, true, 2, 6, 4, {10, 0, 0, NONE}, "03 81 00 00 01 07"},
    {OK_FRAME, LAK_OK, false, 4, 10, 4, {14, 0, 0, NONE}, "03 81 00 00 01 07"},
};

static const step places_from_the_frame[] = {
    {"11 81 00 01 86 10 01 11 02", LAK_INCOMPLETE, false, 9, 0, 0, {0, 9, 0, NONE}, "11 81 00 01 86 10 01 11 02"},
    {"12 03 13 04 14 05 20 91 06", LAK_OK, true, 9, 0, 18, {18, 0, 0, NONE}, SELECT},
};

static const step two_in_one_piece[] = {
    {PING " " OK_FRAME, LAK_OK, false, 6, 0, 6, {6, 0, 0, NONE}, ""},
    {OK_FRAME, LAK_OK, false, 4, 6, 4, {10, 0, 0, NONE}, ""},
};

static const step empty_pieces[] = {
    {"", LAK_INCOMPLETE, false, 0, 0, 0, {0, 0, 0, NONE}, ""},
    {"05", LAK_INCOMPLETE, false, 1, 0, 0, {0, 1, 0, NONE}, "05"},
    {"", LAK_INCOMPLETE, false, 0, 0, 0, {0, 1, 0, NONE}, "05"},
    {"82 00 40 01 07", LAK_OK, true, 5, 0, 6, {6, 0, 0, NONE}, PING},
    {"", LAK_INCOMPLETE, false, 0, 6, 0, {6, 0, 0, NONE}, PING},
};

static const step cut_in_the_size[] = {
    {"ce", LAK_INCOMPLETE, false, 1, 0, 0, {0, 1, 0, NONE}, "ce"},
    {"00 00", LAK_INCOMPLETE, false, 2, 0, 0, {0, 3, 0, NONE}, "ce 00 00"},
    {"00 03 81 00", LAK_INCOMPLETE, false, 4, 0, 0, {0, 7, 0, NONE}, "ce 00 00 00 03 81 00"},
    {"40 e0", LAK_OK, true, 1, 0, 8, {8, 0, 0, NONE}, "ce 00 00 00 03 81 00 40"},
};

static void check_frames(void)
{
    FEEDS(in_one_piece);
    FEEDS(cut_in_three);
    FEEDS(places_from_the_frame);
    FEEDS(two_in_one_piece);
    FEEDS(empty_pieces);
    FEEDS(cut_in_the_size);
}

/* ---- refusals: how far a refused frame is taken, and that each feed after it repeats the answer */

static const step no_size[] = {
    {PING " e0 05", LAK_OK, false, 6, 0, 6, {6, 0, 0, NONE}, ""},
    {"e0 05", LAK_NO_SIZE, false, 1, 6, 0, {6, 0, 2, NONE}, ""},
    {"05 82", LAK_NO_SIZE, false, 0, 6, 0, {6, 0, 2, NONE}, ""},
    {"", LAK_NO_SIZE, false, 0, 6, 0, {6, 0, 2, NONE}, ""},
};

static const step bad_size_in_piece[] = {
    {"ce 00 00 ea 61 81", LAK_BAD_SIZE, false, 5, 0, 0, {0, 0, 3, NONE}, ""},
    {PING, LAK_BAD_SIZE, false, 0, 0, 0, {0, 0, 3, NONE}, ""},
};

static const step bad_size_in_carry[] = {
    {OK_FRAME, LAK_OK, false, 4, 0, 4, {4, 0, 0, NONE}, ""},
    {"ce 00", LAK_INCOMPLETE, false, 2, 4, 0, {4, 2, 0, NONE}, "ce 00"},
    {"00 ea 61 81", LAK_BAD_SIZE, false, 3, 4, 0, {4, 5, 3, NONE}, "ce 00 00 ea 61"},
    {"81", LAK_BAD_SIZE, false, 0, 4, 0, {4, 5, 3, NONE}, "ce 00 00 ea 61"},
};

static const step broken_in_piece[] = {
    {"02 81 c1 00", LAK_BROKEN, false, 3, 0, 0, {0, 0, 4, AT(2)}, ""},
    {"00", LAK_BROKEN, false, 0, 0, 0, {0, 0, 4, AT(2)}, ""},
};

static const step broken_in_carry[] = {
    {"02", LAK_INCOMPLETE, false, 1, 0, 0, {0, 1, 0, NONE}, "02"},
    {"c1", LAK_INCOMPLETE, false, 1, 0, 0, {0, 2, 0, NONE}, "02 c1"},
    {"81 00", LAK_BROKEN, false, 1, 0, 0, {0, 3, 4, AT(1)}, "02 c1 81"},
    {"00", LAK_BROKEN, false, 0, 0, 0, {0, 3, 4, AT(1)}, "02 c1 81"},
};

/* The place counts from the refused frame, whose bytes end where its size says. */
static const step broken_after_a_ping[] = {
    {PING " cd 00 05 81 00 40 81", LAK_OK, false, 6, 0, 6, {6, 0, 0, NONE}, ""},
    {"cd 00 05 81 00 40 81", LAK_INCOMPLETE, false, 7, 6, 0, {6, 7, 0, NONE}, "cd 00 05 81 00 40 81"},
    {"30 05 05", LAK_BROKEN, false, 1, 6, 0, {6, 8, 4, AT(8)}, "cd 00 05 81 00 40 81 30"},
    {"", LAK_BROKEN, false, 0, 6, 0, {6, 8, 4, AT(8)}, "cd 00 05 81 00 40 81 30"},
};

static const step key_missing_in_carry[] = {
    {"03 81", LAK_INCOMPLETE, false, 2, 0, 0, {0, 2, 0, NONE}, "03 81"},
    {"00 01 03", LAK_KEY_MISSING, false, 2, 0, 0, {0, 4, 10, NONE}, "03 81 00 01"},
};

static void check_refusals(void)
{
    FEEDS(no_size);
    FEEDS(bad_size_in_piece);
    FEEDS(bad_size_in_carry);
    FEEDS(broken_in_piece);
    FEEDS(broken_in_carry);
    FEEDS(broken_after_a_ping);
    FEEDS(key_missing_in_carry);
}

/* ---- a reset drops the begun frame, the refusal and the offset */

static const step reset_after_refusal[] = {{PING, LAK_OK, false, 6, 0, 6, {6, 0, 0, NONE}, "02 c1 81"}};
static const step begun_again[] = {{"05 82", LAK_INCOMPLETE, false, 2, 6, 0, {6, 2, 0, NONE}, "05 82 81"}};
static const step reset_after_begun[] = {{OK_FRAME, LAK_OK, false, 4, 0, 4, {4, 0, 0, NONE}, "05 82 81"}};

static void check_reset(void)
{
    lak_session s = lak_session_reset();
    expect(same_session(s, forged(0, 0, 0)), "lak_session_reset", "all 0");
    FEEDS(broken_in_carry);
    s = feed(lak_session_reset(), &reset_after_refusal[0], "reset_after_refusal");
    feed(s, &begun_again[0], "begun_again");
    feed(lak_session_reset(), &reset_after_begun[0], "reset_after_begun");
}

/* ---- 19: at opening and at a feed, before all others */

static void refuses_carry(lak_session s, const char *what)
{
    lak_session_answer a;
    fill("05 82");
    hex(&piece, PING);
    a = lak_session_feed(s, piece.at, piece.n, carry, LAK_CARRY_ROOM - 1);
    expect(a.number == LAK_SHORT_CARRY && a.taken == 0 && a.offset == s.offset && a.length == 0, what, "19");
    expect(no_number(a.place), what, "19, no place");
    expect(right_record(&a, piece.at) && same_session(a.session, s), what, "19, the session as it was");
    expect(carries("05 82"), what, "19, the carry buffer");
}

static void check_short_carry(void)
{
    lak_session_opening opened;
    fill("");
    opened = lak_session_open(carry, LAK_CARRY_ROOM - 1);
    expect(opened.number == LAK_SHORT_CARRY && same_session(opened.session, forged(0, 0, 0)), "lak_session_open",
           "60,008");
    opened = lak_session_open(carry, LAK_CARRY_ROOM);
    expect(opened.number == LAK_OK && same_session(opened.session, forged(0, 0, 0)), "lak_session_open", "60,009");
    opened = lak_session_open(carry, sizeof carry);
    expect(opened.number == LAK_OK && same_session(opened.session, forged(0, 0, 0)), "lak_session_open", "more");
    expect(carries(""), "lak_session_open", "the carry buffer");
    refuses_carry(lak_session_reset(), "fresh");
    refuses_carry(forged(12, 2, 0), "begun");
    refuses_carry(forged_at(12, 0, LAK_BROKEN, 5), "after a refusal");
    refuses_carry(forged_at(12, 2, 0, 5), "a place without a refusal");
    refuses_carry(forged_at(UINT64_MAX, UINT64_MAX, UINT32_MAX, UINT64_MAX), "forged");
}

/* ---- the offset goes round */

static const step round_to_0[] = {{PING, LAK_OK, false, 6, UINT64_MAX - 5, 6, {0, 0, 0, NONE}, ""}};
static const step round_past_0[] = {
    {"03", LAK_INCOMPLETE, false, 1, UINT64_MAX, 0, {UINT64_MAX, 1, 0, NONE}, "03"},
    {"81 00 00", LAK_OK, true, 3, UINT64_MAX, 4, {3, 0, 0, NONE}, OK_FRAME},
    {"00", LAK_BAD_SIZE, false, 1, 3, 0, {3, 0, 3, NONE}, OK_FRAME},
};

/* ---- sessions that no feed left */

static const step held_is_settled[] = {
    {OK_FRAME, LAK_OK, true, 0, 9, 6, {15, 0, 0, NONE}, PING},
    {OK_FRAME, LAK_OK, false, 4, 15, 4, {19, 0, 0, NONE}, PING},
};
static const step held_starts_no_size[] = {{PING, LAK_NO_SIZE, false, 0, 9, 0, {9, 1, 2, NONE}, "e0"}};
static const step held_has_bad_size[] = {{PING, LAK_BAD_SIZE, false, 0, 9, 0, {9, 5, 3, NONE}, "ce 00 00 ea 61"}};
static const step held_is_broken[] = {{PING, LAK_BROKEN, false, 0, 9, 0, {9, 3, 4, AT(2)}, "02 81 c1"}};
static const step held_before_bytes[] = {{"40 01 07", LAK_OK, true, 3, 0, 6, {6, 0, 0, NONE}, "05 82 00 40 01 07 ff"}};
static const step refused_77[] = {
    {PING, 77, false, 0, 9, 0, {9, 3, 77, NONE}, "05 82 00"},
    {"", 77, false, 0, 9, 0, {9, 3, 77, NONE}, "05 82 00"},
};
static const step refused_77_at_5[] = {
    {PING, 77, false, 0, 9, 0, {9, 3, 77, AT(5)}, "05 82 00"},
    {"", 77, false, 0, 9, 0, {9, 3, 77, AT(5)}, "05 82 00"},
};
static const step refused_2_at_the_top[] = {{PING, 2, false, 0, 9, 0, {9, 0, 2, AT(UINT64_MAX)}, ""}};
static const step absent_with_a_value[] = {{PING, 4, false, 0, 9, 0, {9, 0, 4, {false, 7}}, ""}};
static const step place_dropped_by_1[] = {{"82", LAK_INCOMPLETE, false, 1, 9, 0, {9, 2, 0, NONE}, "05 82"}};
static const step place_dropped_by_0[] = {{"40 01 07", LAK_OK, true, 3, 9, 6, {15, 0, 0, NONE}, PING}};
static const step place_dropped_by_2[] = {{PING, LAK_NO_SIZE, false, 0, 9, 0, {9, 1, 2, NONE}, "e0"}};
static const step refused_1[] = {{PING, LAK_INCOMPLETE, false, 0, 9, 0, {9, 0, 1, NONE}, ""}};
static const step refused_19[] = {{PING, LAK_SHORT_CARRY, false, 0, 9, 0, {9, UINT64_MAX, 19, NONE}, ""}};

static void check_forged(void)
{
    FORGED(round_to_0, "", forged(UINT64_MAX - 5, 0, 0));
    FORGED(round_past_0, "", forged(UINT64_MAX, 0, 0));
    FORGED(held_is_settled, PING, forged(9, LAK_CARRY_ROOM + 1, 0));
    FORGED(held_is_settled, PING, forged(9, UINT64_MAX, 0));
    FORGED(held_is_settled, PING, forged(9, 6, 0));
    FORGED(held_starts_no_size, "e0", forged(9, UINT64_MAX, 0));
    FORGED(held_has_bad_size, "ce 00 00 ea 61", forged(9, LAK_CARRY_ROOM, 0));
    FORGED(held_is_broken, "02 81 c1", forged(9, 7, 0));
    FORGED(held_before_bytes, "05 82 00 ff ff ff ff", forged(0, 3, 0));
    FORGED(refused_77, "05 82 00", forged(9, 3, 77));
    FORGED(refused_77_at_5, "05 82 00", forged_at(9, 3, 77, 5));
    FORGED(refused_2_at_the_top, "", forged_at(9, 0, LAK_NO_SIZE, UINT64_MAX));
    FORGED(absent_with_a_value, "", absent_at(9, 0, LAK_BROKEN, 7));
    FORGED(place_dropped_by_1, "05", forged_at(9, 1, 0, 5));
    FORGED(place_dropped_by_0, "05 82 00", forged_at(9, 3, 0, 5));
    FORGED(place_dropped_by_2, "e0", forged_at(9, 1, 0, 5));
    FORGED(refused_1, "", forged(9, 0, LAK_INCOMPLETE));
    FORGED(refused_19, "", forged(9, UINT64_MAX, LAK_SHORT_CARRY));
}

/* ---- a null pointer with length 0 */

static void check_null(void)
{
    lak_session_answer a;
    expect(lak_session_open(NULL, 0).number == LAK_SHORT_CARRY, "lak_session_open", "NULL");
    expect(lak_session_feed(lak_session_reset(), NULL, 0, NULL, 0).number == LAK_SHORT_CARRY, "lak_session_feed",
           "NULL carry");
    fill("05 82");
    a = lak_session_feed(forged(9, 2, 0), NULL, 0, carry, LAK_CARRY_ROOM);
    expect(a.number == LAK_INCOMPLETE && a.taken == 0 && same_session(a.session, forged(9, 2, 0)), "lak_session_feed",
           "NULL piece");
    expect(carries("05 82"), "lak_session_feed", "NULL piece, the carry buffer");
    fill(PING);
    a = lak_session_feed(forged(9, 6, 0), NULL, 0, carry, LAK_CARRY_ROOM);
    expect(a.number == LAK_OK && a.in_carry && a.length == 6, "lak_session_feed", "NULL piece, a frame held");
}

/* ---- the longest frame fills the least carry buffer */

/* A size number of nine bytes, then a ping whose body is 60,000 bytes with its header. */
static void longest(void)
{
    hex(&piece, "cf 00 00 00 00 00 00 ea 60 81 00 40 81 0a c5 ea 58");
    memset(piece.at + piece.n, 0x61, LAK_CARRY_ROOM - piece.n);
    piece.n = LAK_CARRY_ROOM;
}

static void check_longest(void)
{
    lak_session_answer a;
    longest();
    fill("");
    a = lak_session_feed(lak_session_reset(), piece.at, piece.n, carry, LAK_CARRY_ROOM);
    expect(a.number == LAK_OK && !a.in_carry && a.taken == 60009 && a.length == 60009, "longest", "whole");
    expect(carries(""), "longest", "whole, the carry buffer");
    a = lak_session_feed(lak_session_reset(), piece.at, piece.n - 1, carry, LAK_CARRY_ROOM);
    expect(a.number == LAK_INCOMPLETE && a.taken == 60008 && a.session.held == 60008, "longest",
           "its last byte cut off");
    expect(memcmp(carry, piece.at, 60008) == 0 && carry[60008] == 0x5a, "longest", "cut, the carry buffer");
    a = lak_session_feed(a.session, piece.at + 60008, 1, carry, LAK_CARRY_ROOM);
    expect(a.number == LAK_OK && a.in_carry && a.taken == 1 && a.length == 60009, "longest", "its last byte");
    expect(memcmp(carry, piece.at, 60009) == 0 && carry[60009] == 0x5a, "longest", "the carry buffer");
    expect(same_session(a.session, forged(60009, 0, 0)), "longest", "the session that is left");
    a = lak_session_feed(forged(0, UINT64_MAX, 0), piece.at, 1, carry, LAK_CARRY_ROOM);
    expect(a.number == LAK_OK && a.in_carry && a.taken == 0 && a.length == 60009, "longest", "all of it held");
}

int main(void)
{
    check_frames();
    check_refusals();
    check_reset();
    check_short_carry();
    check_forged();
    check_null();
    check_longest();
    printf("%d passed, %d failed\n", passed, failed);
    return failed != 0;
}
