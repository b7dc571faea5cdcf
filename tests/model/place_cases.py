#!/usr/bin/env python3
"""Document 02, 3/12, for the program `program_cases`: what spoils a value and where, what else is wrong beside it, and what has no
place. The lines are those of `cases.py`, `frame_cases.py`, `update_cases.py` and `session_cases.py`."""
import itertools

import session_cases
import sessions
from frame_cases import SELECT, entry, head, map_with, sized
from listing_cases import PING
from notation import packed
from sessions import CARRY_ROOM, Session
from session_cases import ALL
from update_cases import enough, nested, one, operation, operations, text
from updates import plain

C1 = b"\xc1"
SMALL = plain([b"\x05", b"\xa2ab", b"\xc3"])


def maps(d):
    """A map so deep by its values."""
    return b"\x81\x00" * (d - 1) + b"\x80"


def keyed(d):
    """A map so deep by its keys."""
    return b"\x81" * (d - 1) + b"\x80" + b"\x00" * (d - 1)


def with_c1(b):
    for n in range(len(b)):
        yield b[:n] + C1 + b[n + 1 :], "c1 at %d" % n


def cut(b):
    for n in range(len(b)):
        yield b[:n], "cut to %d" % n


# values read alone


def values():
    for container in (b"\x80", b"\x90", b"\xdc\x00\x00", b"\xdd" + bytes(4), b"\xde\x00\x00", b"\xdf" + bytes(4), b"\xdc", b"\xde\x00"):
        yield b"\x91" * 15 + container, "16 deep: %s" % container.hex()
        yield b"\x91" * 16 + container, "17 deep: %s" % container.hex()
    for d in (16, 17):
        yield keyed(d), "maps %d deep by their keys" % d
    # two faults and a third value that is missing: the leftmost counts
    faults = ((C1, "c1"), (nested(16), "deep arrays"), (maps(16), "deep maps"), (keyed(16), "deep keys"), (b"\x91" + C1, "c1 inside"))
    for (a, first), (b, second) in itertools.permutations(faults, 2):
        yield b"\x93" + a + b, "%s, %s, the end" % (first, second)
    for whole in (nested(15), b"\xa3" + C1 * 3, b"\xcd" + C1 * 2, b"\xd4" + C1 * 2, b"\xc4\x01" + C1):
        yield b"\x92" + whole + C1, "%s, then c1" % whole.hex()
        yield b"\x92" + whole, "%s, then the end" % whole.hex()
    for begun in (b"\xa4" + C1 * 3, b"\xd9\xc1" + C1 * 9, b"\xc7\x03" + C1 * 3, b"\xd8" + C1 * 16, b"\xcb" + C1 * 7, b"\xda\x00", b"\xc9\x00\x00\x00"):
        yield begun, "%s, more was due" % begun.hex()


# frames

HEADER = head(0x40)
CONTENTS = [
    (C1, "c1 for a header"),
    (b"\x81" + C1 + b"\x40", "c1 for a key of the header"),
    (b"\x82\x00\x40\x01" + C1, "c1 in the header"),
    (b"\x81\x00\xcd\x01", "a number of the header cut"),
    (b"\x82\x00\x40", "a header cut"),
    (map_with(entry(0x00, b"\x40"), entry(0x7E, nested(16))), "a header 17 deep"),
    (HEADER + C1, "c1 for a body"),
    (HEADER + b"\x81" + C1 + b"\xc0", "c1 for a key of the body"),
    (HEADER + b"\x82\x30\xc0\x31" + C1, "c1 in the body"),
    (HEADER + b"\x81\x30\xa5ab", "a string of the body cut"),
    (HEADER + b"\xde\x00\x02\x30\xc0", "a body cut"),
    (HEADER + map_with(entry(0x30, maps(16))), "a body 17 deep"),
    (b"\x91" + C1 + C1, "4 before 6, in the header"),
    (b"\xc0\x91" + C1, "4 in the body before 6 in the header"),
    (b"\x82\x00\x40\x00\x40" + C1, "4 in the body before 7 in the header"),
    (HEADER + b"\x80" + C1, "c1 after the body"),
    (b"\x90" + HEADER, "6, and nothing is broken"),
]
SIZES = [lambda n: bytes([n])] + [lambda n, b=b, w=w: bytes([b]) + n.to_bytes(w, "big") for b, w in ((0xCC, 1), (0xCD, 2), (0xCE, 4), (0xCF, 8))]


def long_contents(last, promised):
    """Contents of 60,000 bytes: nils in an array that promises so many more than there are, and the last byte."""
    return HEADER + b"\x81\x30\xdd" + (59990 + promised).to_bytes(4, "big") + b"\xc0" * 59989 + last


def frames():
    # what follows the frame would make the value whole, were it read
    for contents, what in CONTENTS:
        for size, after in itertools.product(SIZES, (b"", b"\x40" * 20)):
            begun = size(len(contents))
            yield begun + contents + after, "%s, a size of %d%s" % (what, len(begun), ", bytes after" if after else "")
    contents = SELECT[5:]
    for s, what in with_c1(contents):
        yield sized(s), "the select of 001, %s" % what
    for n in range(1, len(contents)):
        yield sized(contents[:n]) + contents[n:], "the select of 001, its size %d" % n
    for size in SIZES[2:]:
        for last, promised in ((C1, 0), (b"\xc0", 1), (b"\xa1", 0), (b"\xc0", 0)):
            yield size(60000) + long_contents(last, promised) + C1, "60,000 bytes, the last %s, %d missing, a size of %d" % (last.hex(), promised, len(size(0)))
    for s in (b"\x03" + C1, b"\xe0" + C1, b"\x00" + C1, b"\xcd\xea\x61" + C1, b"\xcd\x00"):
        yield s, "refused by its size"


# updates

TUPLE = b"\xdc\x00\x08" + b"".join([b"\x05", b"\xa2ab", b"\xcd\x00\x05", b"\x92\x01\x91\x02", b"\x81\xa1k\xc0", b"\xca" + bytes(4), b"\xd4\x01\x02", b"\xc4\x01z"])
LIST = operations(operation("=", 1, b"\x92\x01\x91\x02"), operation(":", 1, b"\x00", b"\x01", b"\xa1z"), operation("+", 0, b"\xcd\x00\x05"), operation("!", 0, b"\x81\xa1k\xc0"))
NONE = operations()
DEEP = [(nested, "arrays"), (maps, "maps"), (keyed, "maps by their keys")]
# operations outside the rules that are whole values
WRONG = [
    (operation("*", 0, b"\x01"), "an unknown mark"),
    (b"\x93\xd9\x01+\x00\x01", "a mark in two bytes of header"),
    (b"\x93\xa1+\xa10\x01", "a field number that is a string"),
    (operation("+", 0, b"\xc0"), "a sum with nil"),
    (operation("#", 0, b"\x00"), "none removed"),
    (operation(":", 1, b"\xff", b"\x00", b"\xa0"), "a position below 0"),
    (operation(":", 1, b"\x00", b"\xff", b"\xa0"), "a count below 0"),
    (b"\x92\xa1+\x00", "an operation of two"),
    (b"\x83\xa1+\x00\x01\x02\x03\x04", "an operation that is a map"),
    (b"\xc0", "an operation that is nil"),
]


def tuples():
    for n, (t, what) in enumerate(itertools.chain(cut(TUPLE), with_c1(TUPLE))):
        yield t, NONE, 0, "a tuple, %s" % what
        if n % 3 == 0:
            yield t, C1, 7, "a tuple, %s, and a broken list from 7" % what
    for d, (shape, name) in itertools.product((12, 13, 14), DEEP):
        yield plain([shape(d), b"\x01"]), NONE, 0, "%s %d deep, then 1" % (name, d)
        yield plain([b"\x01", shape(d)]), NONE, 0, "1, then %s %d deep" % (name, d)
        yield shape(d), NONE, 0, "%s %d deep for a tuple" % (name, d)
    for t in (C1, b"\x81\x01" + C1, b"\x81\x01", b"\x81" + C1, b"\xa2a", b"\xc4\x01", b"\xd9", b"\x81\x00" + nested(12), b"\x81\x00" + nested(13), b"\xa1" + C1):
        yield t, NONE, 0, "%s for a tuple" % t.hex()
    # left over: whatever stands after a whole value
    for after in (b"\x00", C1, b"\xcd", nested(14), b"\x00" * 16384):
        yield TUPLE + after, NONE, 0, "a tuple and %d bytes more" % len(after)
    # too long
    for n in (16384, 16385):
        for last in (b"\x05", C1, nested(13), b"\xa2a"):
            fill = n - 1 - len(last)
            yield b"\x92" + text(fill - 3) + last, NONE, 0, "%d bytes, %s last" % (n, last.hex())
            yield b"\x92" + last + text(fill - 3), NONE, 0, "%d bytes, %s first" % (n, last.hex())
        yield b"\x91\xda" + (n - 3).to_bytes(2, "big") + b"s" * (n - 4), NONE, 0, "%d bytes, one missing" % n
        yield b"\x91\xda" + (n - 4).to_bytes(2, "big") + C1 * (n - 4), NONE, 0, "%d bytes, c1 in a string" % n
    # too many fields
    for n in (64, 65):
        for at, bad in itertools.product((0, 63, n - 1), (C1, nested(13))):
            fields = [b"\x07"] * n
            fields[at] = bad
            yield plain(fields), NONE, 0, "%d fields, %s at %d" % (n, bad.hex(), at)
        yield plain([b"\x07"] * n)[:-1], NONE, 0, "%d fields, the last missing" % n
        yield plain([b"\x07"] * n) + C1, NONE, 0, "%d fields, and c1" % n
    yield plain([b"\x07"] * 64 + [text(17000), C1]), NONE, 0, "too many fields, too long, and c1"
    # a tuple outside the rules with nothing broken, and a broken list
    for t in (b"\xc0", b"\x90\x90", plain([b"\x07"] * 65), plain([text(17000)])):
        yield t, b"\x91" + C1, 0, "nothing broken in the tuple, c1 in the list"


def lists():
    for n, (s, what) in enumerate(itertools.chain(cut(LIST), with_c1(LIST))):
        yield SMALL, s, 0, "a list, %s" % what
        if n % 3 == 0:
            yield SMALL, s, 7, "a list, %s, from 7" % what
    for d, (shape, name) in itertools.product((12, 13, 14), DEEP):
        for mark in "=!+*":
            yield SMALL, one(mark, 0, shape(d)), 0, "%s %s %d deep" % (mark, name, d)
        yield SMALL, operations(operation("+", 0, b"\x01"), shape(d)), 0, "an operation of %s %d deep" % (name, d)
        yield SMALL, shape(d + 1), 0, "%s %d deep for a list" % (name, d + 1)
    for d in (12, 13):
        yield SMALL, operations(b"\x93\xa1=" + nested(d) + b"\x01"), 0, "a field number %d deep" % d
        yield SMALL, operations(b"\x93" + nested(d) + b"\x00\x01"), 0, "a mark %d deep" % d
        for at in range(3):
            parts = [b"\x00", b"\x01", b"\xa1z"]
            parts[at] = nested(d)
            yield SMALL, one(":", 1, *parts), 0, "a splice with part %d %d deep" % (at, d)
    for s in (C1, b"\x81\x01" + C1, b"\x81\x01", b"\xa2a", b"\xc4\x01", b"\xd9", b"\x81\x00" + nested(13), b"\x81\x00" + nested(14), b"\xa1" + C1):
        yield SMALL, s, 0, "%s for a list" % s.hex()
    # an index base that is none, beside whatever the list is
    for base in (2, 7, 2**64 - 1):
        for s in (b"", NONE, one("=", 0, C1), one("=", 0, nested(12)), one("=", 0, nested(13)), one("=", 0, b""), one("*", 0, b"\x01"), NONE + C1, b"\xc0", b"\xc0" + C1):
            yield SMALL, s, base, "list %s from %d" % (s.hex(), base)
    # an operation outside the rules before and after a broken value
    broken = [(operation("=", 0, C1), "c1"), (operation("=", 0, nested(13)), "13 deep")]
    for (wrong, words), (bad, name) in itertools.product(WRONG, broken):
        yield SMALL, operations(wrong, bad), 0, "%s, then %s" % (words, name)
        yield SMALL, operations(bad, wrong), 0, "%s, then %s" % (name, words)
    for wrong, words in WRONG:
        yield SMALL, operations(wrong, operation("=", 0, b"")), 0, "%s, then the end" % words
        yield SMALL, operations(wrong), 0, words
        yield SMALL, operations(wrong) + C1, 0, "%s, and c1 left over" % words
    for after in (b"\x00", C1, b"\xcd", nested(15), b"\x00" * 32768):
        yield SMALL, LIST + after, 0, "a list and %d bytes more" % len(after)
    # too long
    for n in (32768, 32769):
        for last in (b"\x05", C1, nested(13), b"\xa2a"):
            bad = operation("=", 0, last)
            fill = n - 1 - len(bad)
            yield SMALL, operations(operation("=", 0, text(fill - 7)), bad), 0, "%d bytes, %s last" % (n, last.hex())
            yield SMALL, operations(bad, operation("=", 0, text(fill - 7))), 0, "%d bytes, %s first" % (n, last.hex())
    # too many operations
    for n in (64, 65):
        for at, bad in ((0, C1), (63, nested(13)), (n - 1, C1)):
            listed = [operation("+", 0, b"\x01")] * n
            listed[at] = operation("=", 0, bad)
            yield SMALL, operations(*listed), 0, "%d operations, %s at %d" % (n, bad.hex(), at)
        yield SMALL, operations(*[operation("+", 0, b"\x01")] * n)[:-1], 0, "%d operations, the last byte missing" % n
    # both broken: the tuple's place alone
    yield plain([b"\x01", C1]), b"\x91" + C1, 0, "c1 in both"
    yield b"", b"", 7, "no tuple and no list"
    yield SMALL, b"", 0, "no list"


# sessions


def runs():
    spoiled = [each for each in CONTENTS if not each[1].startswith(("4 before", "4 in", "6,"))]
    for (contents, what), before in itertools.product(spoiled, (b"", PING)):
        for size, sizes in ((SIZES[0], [1]), (SIZES[2], [ALL]), (SIZES[4], [0, 7])):
            s = before + size(len(contents)) + contents + PING
            yield sessions.reset(), b"", s, session_cases.run(s, sizes, [0, "s1", 1, "r", ALL]), "%s, by %s" % (what, " ".join(map(str, sizes)))
    long = SIZES[4](60000) + long_contents(C1, 0)
    yield sessions.reset(), b"", long + PING, ["o", 60008, ALL, ALL, "r", ALL], "refused by the last byte of the longest frame"
    yield sessions.reset(), b"", long + PING, ["o", ALL, ALL], "the same in the piece"
    # sessions that no call gave
    for refused, place in itertools.product((0, 1, 2, 4, 19, 77, 2**32 - 1), (0, 7, 2**64 - 1)):
        yield Session(5, 2, refused, place), PING, PING[2:] + b"\x01" + C1, ["s1", 1, 1, ALL, 0, "r", ALL], "refused %d, place %d" % (refused, place)
        yield Session(5, 0, refused, place), b"", b"\x02\x81" + C1 + PING, ["s1", 1, ALL, "s0", 0, "o", ALL], "refused %d, place %d, nothing held" % (refused, place)


def lines():
    for s, what in values():
        yield "v\t%s\t%s\tours" % (s.hex(), what)
    for s, what in frames():
        yield "f\t%s\t%s" % (packed(s), what)
    for t, s, base, what in itertools.chain(tuples(), lists()):
        yield "u\t%s\t%s\t%d\t%d\t%s" % (packed(t), packed(s), base, enough(t, s, base), what)
    for session, stand, s, steps, what in runs():
        yield session_cases.line(CARRY_ROOM, session, stand, s, steps, what)
