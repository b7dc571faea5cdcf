#!/usr/bin/env python3
"""Sessions for the program `program_cases`: lines `s`, each with a run, and the lines that must be printed.

The fields of a line are the carry buffer's length; the bytes at its start, all others are 5a; the bytes to feed; the session at
first, as offset, held, refused and, where it has one, place; and the steps. A step is `o`, opening; `r`, reset; N, a feed of the next N bytes that were
not taken, or of all that are left; `sN`, the same with a carry buffer that lacks its last byte.
"""
import zlib

import frames
import sessions
from frame_cases import CODES, LEAST_SELECT, SELECT, body, head, keys_of, shown_record, sized
from listing_cases import PING, recorded, synced
from notation import packed, unpacked
from sessions import CARRY_ROOM, Session
from values import shown_place

ALL = 99999
SHORT = "s%d" % ALL
LONG = b"\xcf" + (60000).to_bytes(8, "big") + head(0x00) + b"\x81\x30\xc6" + (59990).to_bytes(4, "big") + bytes(59990)
REFUSED = [
    (b"\xe0", 2), (b"\xc1", 2), (b"\x00", 3), (b"\xcd\xea\x61", 3), (b"\xce\x00\x00\xea\x61", 3), (b"\xcf" + b"\xff" * 8, 3),
    (sized(b"\xc1"), 4), (sized(b"\x82\x00\x40"), 4), (sized(head(0x40) + b"\x80\x80"), 5), (sized(b"\x90"), 6),
    (sized(b"\x82\x00\x40\x00\x40"), 7), (sized(head(0x41)), 8), (sized(head(0x40) + b"\x81\x10\xc0"), 9),
    (sized(head(0x01)), 10), (b"\xce\x00\x00\x00\x03" + head(0x01), 10),
]
CUTTINGS = [[1], [2], [3], [7], [40], [ALL], [0, 1, 0, 0, 5, ALL], [4, 0, 3]]


def pieces(s, sizes):
    """The pieces of a run by these sizes, again and again, until all is taken or a frame refused."""
    session, carry, at = sessions.reset(), bytearray(CARRY_ROOM), 0
    given, seen = [], []
    while at < len(s) and not session.refused:
        n = sizes[len(given) % len(sizes)]
        piece = s[at : at + n]
        got = sessions.feed(session, piece, carry)
        if got.number == 0:
            seen.append((got.offset, sessions.view(got, piece, carry), got.record))
        session, at = got.session, at + got.taken
        given.append(n)
    # the claim of document 02, held to on the model's side too
    assert (seen, session.refused, session.offset, session.place) == sessions.uncut(s)
    return given


def run(s, sizes, more=()):
    return ["o"] + pieces(s, sizes) + list(more)


def first_frames(s, count):
    at = 0
    for _ in range(count):
        at += frames.read(s[at:])[1]
    return s[:at]


def streams():
    yield b"", "nothing"
    yield SELECT, "the select of 001"
    yield PING + SELECT + PING, "three frames"
    yield PING + LEAST_SELECT + PING, "a select without index, offset and iterator"
    yield SELECT + b"\xce", "01's example"
    yield SELECT[:-1], "the select of 001 without its last byte"
    yield PING + b"\xcd\x01", "a size cut short"
    yield PING + b"\xce\x00\x00\xea\x60\x81", "60,000 that have not come"
    for first_byte, width in ((0xCC, 1), (0xCD, 2), (0xCE, 4), (0xCF, 8)):
        yield bytes([first_byte]) + (3).to_bytes(width, "big") + head(0x40) + PING, "a size of %d bytes" % (width + 1)
    for name in ("requests", "responses"):
        yield first_frames(recorded(name), 2), "recorded, %s" % name


def cuttings():
    for s, what in streams():
        for sizes in CUTTINGS:
            yield s, run(s, sizes, [0]), "%s, by %s" % (what, " ".join(map(str, sizes)))
    for code in CODES:
        s = synced(code, 2**32) + sized(head(code) + body(keys_of(code)))
        for sizes in ([7], [ALL]):
            yield s, run(s, sizes), "code %x" % code
    for n in (1, 13, 100):
        s = b"".join(synced(code, 9) for code in CODES)
        yield s, run(s, [n]), "every kind, by %d" % n


def refusals():
    """Each in the first piece and begun, after frames and before them; repeated until a reset, after which the rest is fed."""
    for bad, number in REFUSED:
        assert frames.read(bad)[0] == number
        for before in (b"", PING):
            s = before + bad + PING
            for sizes in ([1], [3], [ALL], [0, 5]):
                yield s, run(s, sizes, [0, ALL, 1, "r", ALL, 0]), "%d, by %s" % (number, " ".join(map(str, sizes)))
    for at in range(0, len(SELECT), 3):
        for value in (SELECT[at] ^ 0x80, SELECT[at] ^ 0x01):
            s = SELECT[:at] + bytes([value]) + SELECT[at + 1 :] + PING
            for sizes in ([11], [ALL]):
                yield s, run(s, sizes, [1]), "the select with %02x at %d" % (value, at)


def resets():
    two = SELECT + PING
    yield two, ["o", 10, "r", 3, "r", ALL, ALL], "a begun frame dropped"
    yield SELECT[:10] + two, ["o", 10, "r", 20, 12, ALL], "a begun frame dropped, then frames"
    yield SELECT[:10] + two, ["o", 10, "o", 20, 12, ALL], "opened again"
    yield two + two, ["o", ALL, ALL, "r", 20, ALL, ALL], "the offset from 0 again"
    yield two, ["r", "r", ALL, "r", "r", ALL], "resets alone"
    yield b"", ["r", 0, 0, "o", 0], "no bytes at all"
    yield SELECT[:31] + PING, ["o", 31, "r", 2, 2], "a short frame where a longer one stood"
    yield b"\x01\xc1" + two, ["o", 1, 1, "r", 1, ALL, ALL], "after a refusal in the carry buffer"


def short_buffers():
    two = SELECT + PING
    yield two, ["o", "s10", 10, "s0", "s22", 22, SHORT, ALL], "19 before, between and after"
    yield b"\x01\xc1" + PING, ["o", SHORT, ALL, SHORT, 1, "r", SHORT, ALL], "19 around a refusal"
    yield b"\x01\xc1" + PING, ["o", 1, "s1", 1, "s1", 1], "19 around a refusal in the carry buffer"


def longest():
    s = LONG + PING
    yield s, ["o", ALL, ALL], "the longest frame in the piece"
    yield s, ["o", 60008, 1, ALL], "all but its last byte, the last"
    yield s, ["o", 1, 60008, ALL], "its first byte, the others"
    yield s, ["o", 9, 40000, ALL, 2, 2], "three pieces"
    yield LONG[:9] + b"\xc1" + LONG[10:] + PING, ["o", 30000, ALL, ALL], "refused by its last byte"


def forged():
    """Sessions that no call gave, with the bytes at the carry buffer's start."""
    top = 2**64 - 1
    for offset in (top, top - 3, top - 4, 2**63, 2**32 - 1):
        yield Session(offset, 0, 0), b"", PING + PING, [ALL, 1, ALL], "offset %d" % offset
        yield Session(offset, 2, 0), PING, PING[2:] + b"\xe0", [ALL, ALL, 1], "offset %d, begun" % offset
        yield Session(offset, 0, 0), b"", b"\x01\xc1", [1, 1, 1], "offset %d, refused" % offset
    for refused in (1, 2, 19, 77, 2**32 - 1):
        yield Session(5, 3, refused), PING, PING, ["s1", 1, 0, ALL, "r", ALL], "refused %d" % refused
    yield Session(top, top, 2**32 - 1), PING, PING, ["s1", 1], "all ones"
    for held in (0, 1, 4, 5, 12, CARRY_ROOM - 1, CARRY_ROOM, CARRY_ROOM + 1, 2**32, top):
        for stand, what in ((PING, "a ping"), (b"\xe0", "2"), (b"\xcd\x00\x00", "3"), (b"\x01\xc1", "4"), (SELECT[:8], "a begun select"), (b"", "5a")):
            yield Session(7, held, 0), stand, SELECT[8:] + PING, [3, ALL, "s2", 2], "held %d of %s" % (held, what)
    yield Session(0, CARRY_ROOM, 0), LONG, PING, [0, ALL], "the longest frame held"
    yield Session(0, CARRY_ROOM - 1, 0), LONG[:-1], PING, [1, ALL], "the longest frame but a byte"


def rooms():
    for room in (0, 1, CARRY_ROOM - 1, CARRY_ROOM, CARRY_ROOM + 1, 61440):
        yield room, Session(0, 0, 0), b"", PING + PING, ["o", 2, 0, ALL, ALL], "room %d" % room
        yield room, Session(9, 2, 0), PING, PING[2:], [ALL, ALL, "r", ALL], "room %d, begun" % room
        yield room, Session(9, 2, 8), PING, PING[2:], [ALL, "r", ALL], "room %d, refused" % room


def runs():
    for group in (cuttings, refusals, resets, short_buffers, longest):
        for s, steps, what in group():
            yield CARRY_ROOM, sessions.reset(), b"", s, steps, what
    for session, stand, s, steps, what in forged():
        yield CARRY_ROOM, session, stand, s, steps, what
    yield from rooms()


def line(room, session, stand, s, steps, what):
    words = " ".join(str(word) for word in session if word is not None)
    return "\t".join(["s", str(room), packed(stand), packed(s), words, " ".join(map(str, steps)), what])


def lines():
    for each in runs():
        yield line(*each)


def sum_of(b):
    return "%08x" % zlib.adler32(bytes(b))


def fed(got, shown):
    numbers = [got.number, "carry" if got.in_carry else "piece", got.taken, got.offset, got.length]
    return ["s", *numbers, *shown_record(got.record), shown_place(got.place), sum_of(shown), shown[:48].hex()]


def step(word, session, left, carry):
    """What is printed of a step, the session after it, and how many bytes it took."""
    if word == "r":
        return ["r"], sessions.reset(), 0
    if word == "o":
        number, after = sessions.opened(carry)
        return ["o", number], after, 0
    piece = left[: int(word.lstrip("s"))]
    lent = carry[:-1] if word[0] == "s" else bytearray(carry)
    got = sessions.feed(session, piece, lent)
    carry[: len(lent)] = lent
    return fed(got, sessions.view(got, piece, carry)), got.session, got.taken


def answer(line):
    _, room, stand, s, session, steps, _ = line.split("\t")
    carry = bytearray(b"\x5a" * int(room))
    stand, s = unpacked(stand)[: len(carry)], unpacked(s)
    carry[: len(stand)] = stand
    session, at, out = Session(*map(int, session.split(" "))), 0, []
    for word in steps.split(" "):
        said, session, taken = step(word, session, s[at:], carry)
        at += taken
        out.append("\t".join(map(str, [*said, *session[:3], shown_place(session.place), sum_of(carry)])))
    return "\n".join(out)
