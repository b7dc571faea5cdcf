/*
 * laksubinat.h: Tarantool's frames and MessagePack values read and written, frames taken as a line
 * delivers them, tuples updated, and updates taken back. Link target/staticlib/liblaksubinat.a
 * (`tests/archive`), for x86-64 Linux. Valid C99 and C++11.
 *
 * What holds of every call, for all bytes, however damaged:
 *   - It ends and answers. `number` is 0 (LAK_OK), or the number of the one refusal that is due.
 *   - Refused: everything else in the answer is 0, and `out` and a press's `undo` keep their bytes.
 *     Only 13 to 16 also give `operation`, the index from 0 of the operation that was refused, and
 *     only 4, 11 and 12 may give `place`, where a value broke: see below. A feed's answer has more,
 *     and its carry buffer one change: see lak_session_feed.
 *   - Accepted: `length` bytes were written or read, of a press's undo list `undo_length`. Bytes of
 *     `out` and `undo` past them are unchanged.
 *   - Nothing is kept between calls, no memory is allocated, and no other memory is written; so
 *     any thread may call. Stack, measured: lak_undo and lak_press 121 KB, lak_update 53 KB,
 *     lak_frame_read and lak_session_feed 8 KB; the others less than 4 KB.
 *
 * `place` is where a value broke: the first byte that spoils it. That is an unused first byte (c1),
 * the array or map that goes one too deep, or the end of the bytes where more were due, whichever
 * is leftmost. It is present exactly
 *   - with 4 in reading: counted from the value's first byte, or from that of the frame, whose
 *     bytes end where its size says, also where more are lent;
 *   - with 11 where the tuple, read as one value at most 13 deep, is broken, and with 12 where the
 *     list is, at most 14 deep: counted from its first byte, whatever else is wrong beside it.
 * Else it is absent, all 0. Bytes left over after a whole value do not break it; 11 says nothing of
 * the list; lak_frame_write gives no place.
 *
 * What the caller owes, since C cannot ask for it and the proofs assume it:
 *   - A pointer is valid for the length beside it: inputs to be read, `out`, a press's `undo` and a
 *     feed's `carry` to be written.
 *   - `out` and `undo` overlap no input and not one another, and `carry` no piece. Inputs may
 *     overlap one another.
 *   - No other thread writes the lent bytes during the call.
 *   - `present` in a frame or session is true or false and not another byte; memset to 0 is an
 *     empty frame.
 * With length 0 the pointer is never used: it may be NULL (tested, not proved).
 */
#ifndef LAKSUBINAT_H
#define LAKSUBINAT_H

#include <stdbool.h>
#include <stddef.h>
#include <stdint.h>

#ifdef __cplusplus
extern "C" {
#endif

/* Why a call refuses. lak_words has the words. */
enum lak_refusal {
    LAK_OK = 0,
    LAK_INCOMPLETE = 1,
    LAK_NO_SIZE = 2,
    LAK_BAD_SIZE = 3,
    LAK_BROKEN = 4,
    LAK_LEFT_OVER = 5,
    LAK_BAD_MAP = 6,
    LAK_KEY_TWICE = 7,
    LAK_BAD_CODE = 8,
    LAK_BAD_HELD = 9,
    LAK_KEY_MISSING = 10,
    LAK_BAD_TUPLE = 11,
    LAK_BAD_LIST = 12,
    LAK_NO_FIELD = 13,
    LAK_UNSUITED = 14,
    LAK_OUT_OF_RANGE = 15,
    LAK_TOO_LARGE = 16,
    LAK_LONG_UNDO = 17,
    LAK_SHORT_BUFFER = 18,
    LAK_SHORT_CARRY = 19
};

/* What a frame is: its code. An error's is any from LAK_CODE_ERROR_FIRST to LAK_CODE_ERROR_LAST.
 * Beside each, what its body requires (10). */
enum lak_code {
    LAK_CODE_OK = 0x00,
    LAK_CODE_SELECT = 0x01,  /* space, limit, key */
    LAK_CODE_INSERT = 0x02,  /* space, tuple */
    LAK_CODE_REPLACE = 0x03, /* space, tuple */
    LAK_CODE_UPDATE = 0x04,  /* space, key, tuple */
    LAK_CODE_DELETE = 0x05,  /* space, key */
    LAK_CODE_CALL_16 = 0x06, /* function, tuple */
    LAK_CODE_AUTH = 0x07,    /* user, tuple */
    LAK_CODE_EVAL = 0x08,    /* expression, tuple */
    LAK_CODE_UPSERT = 0x09,  /* space, tuple, ops */
    LAK_CODE_CALL = 0x0a,    /* function, tuple */
    LAK_CODE_PING = 0x40,
    LAK_CODE_ERROR_FIRST = 0x8000, /* error */
    LAK_CODE_ERROR_LAST = 0x8fff
};

/* What a value is. */
enum lak_kind {
    LAK_KIND_NIL = 0,
    LAK_KIND_BOOLEAN = 1,
    LAK_KIND_FROM_ZERO = 2,  /* an integer from 0 up */
    LAK_KIND_BELOW_ZERO = 3, /* an integer below 0 */
    LAK_KIND_FLOAT32 = 4,
    LAK_KIND_FLOAT64 = 5,
    LAK_KIND_STRING = 6,
    LAK_KIND_BIN = 7,
    LAK_KIND_EXT = 8,
    LAK_KIND_ARRAY = 9,
    LAK_KIND_MAP = 10
};

/* The longest that each call writes: an `out` of this size is never refused with 18, nor is a press
 * with LAK_TUPLE_ROOM of `out` and LAK_UNDO_ROOM of `undo`. */
enum lak_room { LAK_FRAME_ROOM = 60005, LAK_TUPLE_ROOM = 16384, LAK_UNDO_ROOM = 32768 };

/* What a carry buffer has at least: the longest frame, nine bytes of size number and 60,000. */
enum { LAK_CARRY_ROOM = 60009 };

/* A number that a frame may leave out, or the place where a value broke. */
typedef struct {
    bool present;
    uint64_t value;
} lak_number;

/* The place of a value that a frame may leave out: exactly its encoding, counted from the first
 * lent byte. */
typedef struct {
    bool present;
    uint64_t start;
    uint64_t length;
} lak_place;

/* What a frame holds under its known keys. What is absent is all 0 in a record that a call answers;
 * in one that is written, where `present` is false the key is left out and the rest not looked at.
 * `index`, `offset`, `iterator` and `index_base` count as 0 where they are absent, so that `value`
 * may be used as a call answered it, and `present` tells whether the frame had the key. */
typedef struct {
    uint64_t code;
    lak_number sync, schema_version;
    lak_number space, index, limit, offset, iterator, index_base;
    lak_place key, tuple, function, user, expression, ops, data, error;
} lak_frame;

/* What reading a frame answers: the length with the size number, and the record. */
typedef struct {
    uint32_t number;
    uint64_t length;
    lak_frame frame;
    lak_number place;
} lak_frame_answer;

/* A session: what one feed leaves for the next. No call trusts it: any value is answered.
 *   offset   the length of all frames answered since the opening or reset, going round from
 *            2^64-1 to 0
 *   held     how many bytes of the frame at hand stand at the carry buffer's start; of a refused
 *            frame 0 where it began in the piece that settled it
 *   refused  the number of the refused frame, or 0. No call leaves 1 here; any number but 0 that is
 *            handed in is repeated as it is, with nothing taken
 *   place    of the refused frame; repeated with `refused`, and not looked at where that is 0 */
typedef struct {
    uint64_t offset;
    uint64_t held;
    uint32_t refused;
    lak_number place;
} lak_session;

/* What opening a session answers. */
typedef struct {
    uint32_t number;
    lak_session session;
} lak_session_opening;

/* What a feed answers.
 *   number         0 with a frame; 1 where the frame at hand is not settled yet; else a refusal
 *   in_carry       the frame is shown from the carry buffer's start, else from the piece's; false
 *                  where `number` is not 0
 *   taken          how many bytes of the piece were taken, refused or not
 *   offset         where the frame at hand begins, refused or not
 *   length, frame  as lak_frame_read gives them; places count from the shown frame's first byte
 *   session        for the next feed
 *   place          as lak_frame_read gives it */
typedef struct {
    uint32_t number;
    bool in_carry;
    uint64_t taken, offset, length;
    lak_frame frame;
    lak_session session;
    lak_number place;
} lak_session_answer;

/* What writing answers: the length written. */
typedef struct {
    uint32_t number;
    uint32_t operation;
    uint64_t length;
    lak_number place;
} lak_answer;

/* What a press answers: the length of the new tuple, and that of its undo list. */
typedef struct {
    uint32_t number;
    uint32_t operation;
    uint64_t length;
    uint64_t undo_length;
    lak_number place;
} lak_press_answer;

/* What reading a value answers.
 *   length       of the whole value
 *   kind         an enum lak_kind
 *   bits         a boolean's 0 or 1; the integer, below 0 as 64-bit two's complement, so that
 *                (int64_t)bits is it; exactly the bits sent of a float, also of a NaN; else 0
 *   start, size  the content of a string, bin or ext (without its type), the whole encoding of an
 *                array or map; else 0
 *   ext_type     of an ext; else 0 */
typedef struct {
    uint32_t number;
    uint32_t kind;
    uint64_t length;
    uint64_t bits;
    uint64_t start;
    uint64_t size;
    uint8_t ext_type;
    lak_number place;
} lak_value_answer;

/* The value at the front of `bytes`, at most 16 deep; nothing past its end is judged. Refuses: 4. */
lak_value_answer lak_value_read(const uint8_t *bytes, size_t n);

/* The first frame of `bytes`; nothing past its end is judged. Refuses: 2, 1, 3, 1 (the size number,
 * then what it promises), 4, 5, 6, 7, 8, 9, 10, in this order. */
lak_frame_answer lak_frame_read(const uint8_t *bytes, size_t n);

/* The record's frame into `out`; its places are in `bytes`. Refuses: 8, 4, 9, 10, 3, 18. */
lak_answer lak_frame_write(lak_frame frame, const uint8_t *bytes, size_t n, uint8_t *out, size_t room);

/* A session over this carry buffer, which keeps its bytes. Refuses: 19. */
lak_session_opening lak_session_open(const uint8_t *carry, size_t room);

/* A session begun anew: it drops the begun frame and the refusal, and its offset is 0. */
lak_session lak_session_reset(void);

/* The next frame, one at most; what is not `taken` of the piece begins the next piece. Refuses: 19,
 * then the refused frame's number again, then 2, 1, 3, 1, 4 to 10 as lak_frame_read on the begun
 * frame and the piece together.
 *   - 1: the whole piece is taken, also one of no bytes, and put after the `held` bytes of `carry`.
 *   - A frame that lies whole in the piece is shown there, and `carry` keeps its bytes. Of one begun
 *     earlier the missing bytes are put into `carry`, and it is shown from there.
 *   - A refused frame is taken up to the byte that settles it: the first for 2, the size number's
 *     last for 3, else the frame's last. Those of one begun earlier stand at the start of `carry`.
 *   - After a refused frame each feed repeats its number, offset and place, and takes and changes
 *     nothing until a reset. 19 too takes and changes nothing, and has no place: the session comes
 *     back as it was.
 * The rest of `carry` keeps its bytes. A frame shown from `carry` stays good until the next feed, one
 * shown in the piece as long as the piece. However a line's bytes are cut into pieces from an opening
 * or reset on, until all are taken or a frame is refused, the frames, the refusal with its place and
 * their offsets are the same: for this each feed is given the session that the last one left, a
 * piece from the first byte not yet taken, and `carry` as the last feed left it. Beside what every
 * call asks of its caller nothing is asked, and nothing is trusted. */
lak_session_answer lak_session_feed(lak_session session, const uint8_t *piece, size_t n, uint8_t *carry, size_t room);

/* The list's operations on the tuple, left to right; the new tuple into `out`. Field numbers count
 * from `index_base`, 0 or 1. Refuses: 11, 12, then for each operation 13, 14, 15, 16; then 18. */
lak_answer lak_update(const uint8_t *tuple, size_t n, const uint8_t *list, size_t m, uint64_t index_base, uint8_t *out,
                      size_t room);

/* The list that takes that update back, on the same inputs, into `out`. It counts fields from 0:
 * lak_update on the new tuple with this list and index base 0 gives the old fields, byte for byte.
 * Refuses as lak_update does, with 17 before 18. */
lak_answer lak_undo(const uint8_t *tuple, size_t n, const uint8_t *list, size_t m, uint64_t index_base, uint8_t *out,
                    size_t room);

/* Both in one run, for a box that keeps the undo list of each press: the new tuple into `out` as
 * lak_update writes it, its undo list into `undo` as lak_undo does. A press goes in whole or not at
 * all: refused, neither buffer is changed. Refuses: 11, 12, then for each operation 13, 14, 15, 16;
 * then 17; then 18 where either buffer is too short. Without an undo list, lak_update is quicker and
 * does not ask for 17. */
lak_press_answer lak_press(const uint8_t *tuple, size_t n, const uint8_t *list, size_t m, uint64_t index_base,
                           uint8_t *out, size_t room, uint8_t *undo, size_t undo_room);

/* A refusal's words for people. */
static inline const char *lak_words(uint32_t number)
{
    static const char *const words[] = {
        "accepted",
        "the frame has not all come",
        "the first byte starts no size number",
        "the size is 0 or above 60,000",
        "a value is broken, runs past its bytes or is too deep",
        "bytes remain after the body",
        "header or body is not a map, or a key is not 0 to 127",
        "a key stands twice",
        "the code is absent, not unsigned or unknown",
        "a known key holds a wrong type or range",
        "a required key of the body is absent",
        "the tuple is outside the rules",
        "the list of operations is outside the rules",
        "there is no such field",
        "the field's type or sign does not suit the operation",
        "the sum or difference is out of range",
        "more than 64 fields or 16,384 bytes after an operation",
        "the undo list is above 64 operations or 32,768 bytes",
        "the lent buffer is too short",
        "the carry buffer is under 60,009 bytes",
    };
    return number < sizeof words / sizeof words[0] ? words[number] : "no such number";
}

/* The first byte of the frame that a feed shows, given what that feed was given. */
static inline const uint8_t *lak_session_shown(const lak_session_answer *answer, const uint8_t *piece,
                                               const uint8_t *carry)
{
    return answer->in_carry ? carry : piece;
}

#ifdef __cplusplus
}
#endif

#endif
