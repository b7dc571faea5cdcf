#!/usr/bin/env python3
"""Updates for the program `program_cases`: a line `u` is a tuple, a list, an index base and the room of every output buffer; a line
`p` is a press, with the room of the tuple's buffer and that of the undo list's.

  update_cases.py lines      the lines
  update_cases.py answers    what must be printed of them. `u`: the update call's answer and buffer, the undo call's, and a press's
                             answer with the sums of its two buffers; `p`: the last alone
"""
import itertools
import sys

from notation import packed, shown, total, unpacked
from updates import array_header, integer, plain, press, string, undo, update
from values import shown_place

BORDERS = [0, 1, 31, 32, 33, 127, 128, 129, 255, 256, 257, 32767, 32768, 32769, 65535, 65536, 65537, 2**31 - 1, 2**31, 2**31 + 1,
           2**32 - 1, 2**32, 2**32 + 1, 2**63 - 1, 2**63, 2**63 + 1, 2**64 - 2, 2**64 - 1]
INTEGERS = BORDERS + [-z for z in BORDERS if 0 < z <= 2**63]


def operation(mark, f, *arguments):
    return array_header(2 + len(arguments)) + b"\xa1" + mark.encode() + integer(f) + b"".join(arguments)


def operations(*listed):
    return array_header(len(listed)) + b"".join(listed)


def one(mark, f, *arguments):
    return operations(operation(mark, f, *arguments))


def wide(z):
    """An integer in eight bytes, whatever it needs."""
    return (b"\xcf" + z.to_bytes(8, "big")) if z >= 2**63 else b"\xd3" + z.to_bytes(8, "big", signed=True)


def nested(d):
    return b"\x91" * (d - 1) + b"\x90" if d else b"\xc0"


def text(n):
    return string(b"x" * n)


def cases():
    small = plain([b"\x05", b"\xa2ab", b"\xc3"])
    yield bytes.fromhex("9305a26162c3"), bytes.fromhex("9193a15e0001"), 0, "01: xor"
    yield bytes.fromhex("91cd0005"), bytes.fromhex("9193a12b0001"), 0, "01: plus on a long form"
    yield bytes.fromhex("93010203"), bytes.fromhex("9193a1230105"), 0, "01: remove past the end"
    yield bytes.fromhex("9101"), bytes.fromhex("9193a13d0109"), 0, "01: append"
    yield bytes.fromhex("91a3616263"), bytes.fromhex("9195a13a000101a25859"), 0, "01: splice"
    yield bytes.fromhex("9100"), bytes.fromhex("9193a12d0001"), 0, "01: minus"
    yield bytes.fromhex("91cf") + b"\xff" * 8, bytes.fromhex("9193a12b0001"), 0, "01: out of range"
    yield b"\x90", b"\x90", 0, "01: nothing on nothing"
    # sums and differences at every border, both ways round
    for x in INTEGERS:
        for v in (0, 1, -1, x, -x):
            if -(2**63) <= v < 2**64:
                for mark in "+-":
                    yield plain([integer(x)]), one(mark, 0, integer(v)), 0, "%d %s %d" % (x, mark, v)
    for x, v in ((2**64 - 1, 2**64 - 1), (-(2**63), 2**64 - 1), (2**63, -(2**63)), (0, -(2**63)), (0, 2**64 - 1)):
        for mark in "+-":
            yield plain([wide(x)]), one(mark, 0, wide(v)), 0, "%d %s %d" % (x, mark, v)
    # bits
    for x, v in ((0, 0), (5, 3), (255, 256), (2**32, 2**32 - 1), (2**64 - 1, 2**64 - 1), (2**63, 1), (0xF0F0, 0x0FF0)):
        for mark in "&^|":
            yield plain([integer(x)]), one(mark, 0, integer(v)), 0, "%d %s %d" % (x, mark, v)
            yield plain([wide(x)]), one(mark, 0, wide(v)), 0, "%d %s %d, eight bytes" % (x, mark, v)
    for mark in "&^|":
        yield plain([integer(-1)]), one(mark, 0, b"\x01"), 0, "%s on a field below 0" % mark
        yield plain([b"\x01"]), one(mark, 0, b"\xff"), 0, "%s by -1" % mark
        yield plain([b"\xd0\x05"]), one(mark, 0, b"\xd0\x03"), 0, "%s in signed forms" % mark
    # fields that do not suit
    for field in (b"\xc0", b"\xc3", b"\xa15", b"\xca" + bytes(4), b"\xcb" + bytes(8), b"\x90", b"\x80", b"\xc4\x01a", b"\xd4\x01\x02", b"\x05", b"\xff"):
        for mark in "+-&^|":
            yield plain([field]), one(mark, 0, b"\x01"), 0, "%s on %s" % (mark, field.hex())
        yield plain([field]), one(":", 0, b"\x00", b"\x00", b"\xa1z"), 0, "splice on %s" % field.hex()
    # field numbers
    for f in (-(2**63), -2, -1, 0, 1, 2, 3, 4, 5, 63, 64, 2**32, 2**64 - 1):
        for base in (0, 1):
            for mark, argument in (("+", b"\x01"), ("=", b"\xa1n"), ("!", b"\xc0"), ("#", b"\x01")):
                yield small, operations(array_header(3) + b"\xa1" + mark.encode() + (wide(f) if abs(f) > 5 else integer(f)) + argument), base, "%s at %d from %d" % (mark, f, base)
            yield small, one(":", f, integer(base), b"\x01", b"\xa1z"), base, "splice at %d from %d" % (f, base)
    # splices
    for p in (0, 1, 2, 3, 4, 2**32, 2**64 - 1):
        for count in (0, 1, 2, 3, 2**64 - 1):
            for argument in (b"", b"Z", b"XYZ"):
                yield plain([b"\xa3abc"]), one(":", 0, integer(p), integer(count), string(argument)), 0, "splice %d %d %s" % (p, count, argument.decode())
    for p, base in ((0, 1), (1, 1), (-1, 0), (-(2**63), 1), (2, 1)):
        yield plain([b"\xa3abc"]), one(":", base, integer(p), b"\x01", b"\xa0"), base, "position %d from %d" % (p, base)
    for n in (31, 32, 255, 256):
        yield plain([text(n)]), one(":", 0, b"\x00", b"\x01", b"\xa0"), 0, "a string of %d gets shorter" % n
        yield plain([text(n)]), one(":", 0, b"\x00", b"\x00", b"\xa1z"), 0, "a string of %d gets longer" % n
        yield plain([b"\xdb" + n.to_bytes(4, "big") + b"x" * n]), one(":", 0, b"\x00", b"\x00", b"\xd9\x00"), 0, "a string of %d in a long form" % n
    # removals
    for m in (1, 2, 3, 4, 64, 65, 2**64 - 1):
        for f in (0, 1, 2):
            yield small, one("#", f, integer(m)), 0, "remove %d from %d" % (m, f)
    for m in (0, -1, -(2**63)):
        yield small, one("#", 0, integer(m)), 0, "remove %d" % m
    # arguments: any value, and depth
    for argument in (b"\xc0", b"\xcd\x00\x05", b"\xd9\x01a", b"\xdd" + bytes(4), b"\xca\x7f\xc0\x00\x01", nested(12), nested(13), b"\xc1", b"", b"\x91"):
        for mark in "=!":
            yield small, one(mark, 1, argument), 0, "%s %s" % (mark, argument.hex())
    for mark in "+-&^|#":
        for argument in (b"\xc0", b"\xa11", b"\xca" + bytes(4), b"\x91\x01", b"\xcd\x01", b"\xc1", b""):
            yield small, one(mark, 0, argument), 0, "%s by %s" % (mark, argument.hex())
    for argument in (b"\xc0", b"\x01", b"\xc4\x01a", b"\xa2a", b""):
        yield small, one(":", 1, b"\x00", b"\x00", argument), 0, "splice by %s" % argument.hex()
    # tuples: shape, width, depth, sizes
    for t in (b"", b"\xc0", b"\x80", b"\x81\x01\x02", b"\x91", b"\x92\x01", b"\x91\x01\x02", b"\x90\x00", b"\xdc", b"\xdc\x00", b"\xdc\x00\x01\x05", b"\xdd\x00\x00\x00\x01\x05", b"\xdd\xff\xff\xff\xff\x05", b"\x91\xc1", b"\x05"):
        yield t, b"\x90", 0, "tuple %s" % t.hex()
        yield t, b"\xc1", 2, "tuple %s, and a list outside the rules" % t.hex()
    for d in (11, 12, 13):
        yield plain([nested(d)]), b"\x90", 0, "a field %d deep" % d
    for n in (15, 16, 63, 64, 65):
        yield plain([b"\x07"] * n), b"\x90", 0, "%d fields" % n
        yield plain([b"\x07"] * n), one("!", 0, b"\x08"), 0, "%d fields and one more" % n
        yield plain([b"\x07"] * n), one("#", 0, b"\x01"), 0, "%d fields and one less" % n
        yield b"\xdd" + n.to_bytes(4, "big") + b"\x07" * n, one("=", n, b"\x08"), 0, "%d fields in a long form, and one more" % n
    for n in (16383, 16384, 16385):
        t = b"\x91\xda" + (n - 4).to_bytes(2, "big") + b"s" * (n - 4)
        assert len(t) == n
        yield t, b"\x90", 0, "a tuple of %d bytes" % n
        yield t, one("!", 0, b"\x01"), 0, "a tuple of %d bytes and one more" % n
        yield t, one(":", 0, b"\x00", b"\x00", b"\xa1z"), 0, "a tuple of %d bytes, spliced" % n
        yield t, one(":", 0, b"\x00", b"\x01", b"\xa1z"), 0, "a tuple of %d bytes, spliced to the same length" % n
        yield t, one("=", 0, b"\x01"), 0, "a tuple of %d bytes, then short" % n
        yield t, one("#", 0, b"\x01"), 0, "a tuple of %d bytes, then empty" % n
        long = b"\xdd\x00\x00\x00\x01\xda" + (n - 8).to_bytes(2, "big") + b"s" * (n - 8)
        yield long, one("!", 0, b"\x01"), 0, "a long header and %d bytes, and one more" % n
    yield b"\x91" + text(16000), one("!", 0, text(400)), 0, "16 by a long argument"
    # lists: shape, width, marks, sizes
    for s in (b"", b"\xc0", b"\x80", b"\x91", b"\x90\x90", b"\xdc\x00\x00", b"\xdd\x00\x00\x00\x00", b"\x91\x90", b"\x91\x92\xa1+\x00", b"\x91\x94\xa1+\x00\x01\x01",
              b"\x91\x95\xa1+\x00\x01\x01\x01", b"\x91\x93\xa1:\x00\x01", b"\x91\xdc\x00\x03\xa1+\x00\x01", b"\x91\xdd\x00\x00\x00\x03\xa1+\x00\x01", b"\x91\x93\xd9\x01+\x00\x01",
              b"\x91\x93\xa0\x00\x01", b"\x91\x93\xa2++\x00\x01", b"\x91\x93\xa1*\x00\x01", b"\x91\x93\xa1\x00\x00\x01", b"\x91\x93+\x00\x01", b"\x91\x93\xa1+\xc0\x01", b"\x91\x93\xa1+\xa10\x01",
              b"\x91\x93\xa1+\x00\x01\x00", b"\x92\x93\xa1+\x00\x01", b"\x91\x93\xa1+\xca\x00\x00\x00\x00\x01", b"\xdd\xff\xff\xff\xff", b"\x91\x81\xa1+\x00"):
        for base in (0, 1):
            yield small, s, base, "list %s from %d" % (s.hex(), base)
    for base in (2, 3, 2**32, 2**64 - 1):
        yield small, b"\x90", base, "base %d, an empty list" % base
        yield small, one("+", 0, b"\x01"), base, "base %d" % base
    for n in (63, 64, 65):
        yield plain([b"\x00"]), operations(*[operation("+", 0, b"\x01")] * n), 0, "%d operations" % n
        yield plain([]), operations(*[operation("!", 0, b"\x01")] * n), 0, "%d insertions" % n
    for n in (32767, 32768, 32769):
        rest = n - 1 - 5 - 3
        yield small, b"\x91\x93\xa1=\x00\xda" + rest.to_bytes(2, "big") + b"s" * rest, 0, "a list of %d bytes" % n
    # each operation meets what the one before left
    yield small, operations(operation("#", 0, b"\x02"), operation("!", 0, b"\x05"), operation("+", 0, b"\x01"), operation("=", 2, b"\xc0")), 0, "four in a row"
    yield small, operations(operation("!", 0, b"\x05"), operation("#", 1, b"\x01"), operation("=", 0, b"\xa0"), operation(":", 0, b"\x00", b"\x00", b"\xa1q")), 0, "four others"
    yield small, operations(operation("+", 0, b"\x01"), operation("+", 9, b"\x01")), 0, "the second past the end"
    yield small, operations(operation("+", 0, b"\x01"), operation("+", 1, b"\x01")), 0, "the second does not suit"
    yield small, operations(operation("=", 0, integer(2**64 - 1)), operation("+", 0, b"\x01")), 0, "the second out of range"
    yield small, operations(operation("+", 9, b"\x01"), operation("*", 0, b"\x01")), 0, "12 before 13"
    # undo lists at and past their limits
    for n in (31, 32, 33):
        yield plain([b"\x01"]), operations(*([operation("!", 0, b"\x07")] * n + [operation("#", 0, b"\x40")])), 0, "%d inserted, all removed" % n
    for n in (62, 63, 64):
        yield plain([b"\x07"] * n), operations(operation("#", 0, b"\x40"), operation("!", 0, b"\x01")), 0, "%d removed, one inserted" % n
    for n in (16371, 16372, 16373, 16374, 16375, 16376):
        yield plain([text(n)]), operations(operation("=", 0, text(n)), operation("=", 0, b"\x01")), 0, "two old fields of %d" % n
    yield plain([text(16000)]), operations(operation("=", 0, text(16000)), operation("=", 0, text(16000)), operation("=", 0, b"\x01")), 0, "three old fields of 16,000: the list too"


def sized(e):
    """How many bytes the text of a string has that takes e bytes in its shortest form."""
    return e - 1 if e <= 32 else e - 2 if e <= 257 else e - 3


def resizing(f, now, *sizes):
    """Splices that bring the string of field f, which takes `now` bytes, to each of these sizes; the last is left."""
    n = sized(now)
    for m in map(sized, sizes):
        yield operation(":", f, b"\x00", integer(max(n - m, 0)), text(max(m - n, 0)))
        n = m


def again(f, times):
    """Splices that write the string of field f anew and change its first byte only."""
    return [operation(":", f, b"\x00", b"\x01", b"\xa1" + bytes([0x61 + i % 26])) for i in range(times)]


def work_cases():
    """What is computed lies in an array of the engine, which fills: numbers and strings whose bytes come to a border of 256, 4,096,
    16,384 or 49,152 together."""
    for n, last in ((255, [256]), (256, [256, 0]), (257, [2**16])):
        t = plain([wide(2**32)] + [integer(x) for x in last])
        plus = [operation("+", 0, b"\x01")] * 28 + [operation("+", 1 + i, b"\x01") for i in range(len(last))]
        yield t, operations(*plus), 0, "numbers of %d bytes are computed" % n
        yield t, operations(*plus, operation("+", 0, b"\x01"), operation("+", 9, b"\x01")), 0, "%d and 9 more, then 13" % n
    for n in (255, 256, 257, 4095, 4096, 4097, 16383):
        yield plain([string(b"x")]), operations(*resizing(0, 2, n)), 0, "a string of %d bytes is computed" % n
        yield plain([text(sized(n))]), operations(*again(0, 1)), 0, "a string of %d bytes is computed of one" % n
        m = min(n, 16382)
        yield plain([text(sized(m)), b"\x07"]), operations(*again(0, 1), operation("+", 1, b"\x01")), 0, "%d bytes and a number" % m
    for n in (255, 256, 257, 4095, 4096, 4097, 16383, 16384, 16385):
        yield plain([text(sized(n // 2))]), operations(*again(0, 1), *resizing(0, n // 2, n - n // 2)), 0, "two strings of %d bytes" % n
    for n in (255, 256, 257, 4095, 4096, 4097, 16383, 16384, 16385, 49151, 49152, 49153):
        last = n - 15 * (n // 16)
        yield plain([text(sized(n // 16)), b"\x07"]), operations(*again(0, 15), *resizing(0, n // 16, last)), 0, "16 strings of %d bytes" % n
        yield plain([b"\x07", text(sized(n // 16))]), operations(*again(1, 15), *resizing(1, n // 16, last), *again(1, 3), operation("+", 0, b"\x01")), 0, "16 strings of %d bytes and more" % n
    for n in (49151, 49152, 49153):
        yield plain([text(15997)]), operations(*again(0, 3), *resizing(0, 16000, n - 48000)), 0, "four strings of %d bytes" % n
    # as much as tuple and undo list can hold: the new field and two old ones, all computed, and the first
    for n in (16370, 16371, 16372):
        yield plain([b"\xa0"]), operations(*resizing(0, 1, n, 16383), *again(0, 1)), 0, "computed strings of %d, 16,383 and 16,383" % n
    # long strings, spliced again and again
    for n in (16000, 16383):
        yield plain([text(sized(n))]), operations(*again(0, 64)), 0, "64 splices of %d bytes" % n
    yield plain([text(15997)]), operations(*resizing(0, 16000, *range(16001, 16065))), 0, "64 splices of 16,000 bytes, longer each time"
    yield plain([text(15997)]), operations(*resizing(0, 16000, *range(15999, 15935, -1))), 0, "64 splices of 16,000 bytes, shorter each time"
    yield plain([text(8000)] * 2), operations(*sum(([a, b] for a, b in zip(again(0, 32), again(1, 32))), [])), 0, "64 splices of two strings in turn"
    yield plain([text(250)] * 64), operations(*[again(i, i + 1)[-1] for i in range(64)]), 0, "64 strings, each spliced"
    yield plain([text(4000)] * 4), operations(*[operation("#", 0, b"\x01"), operation("!", 3, text(100)), *again(2, 2)] * 8), 0, "strings that come, go and are spliced"
    t = plain([text(15997), b"\xc3"])
    for what, bad in (("12", operation("*", 0, b"\x01")), ("13", operation("+", 2, b"\x01")), ("14", operation("+", 1, b"\x01")),
                      ("15", operation("+", 1, b"\x01")), ("16", operation("!", 0, text(500)))):
        t = plain([text(15997), integer(2**64 - 1) if what == "15" else b"\xc3"])
        for n in (1, 3, 4, 20, 63):
            yield t, operations(*again(0, n), bad), 0, "%s after %d splices of 16,000 bytes" % (what, n)
    yield t, operations(*again(0, 20), operation("+", 2, b"\x01"), *again(0, 20), operation("*", 0, b"\x01")), 0, "12 behind 13 and 40 splices"


def undo_cases():
    """Undo lists that only just fit, or only just do not."""
    for a, b in ((16375, 16376), (16376, 16376), (16376, 16377), (16377, 16377)):
        yield plain([text(a)]), operations(operation("=", 0, text(b)), operation("=", 0, b"\x01")), 0, "an undo list of %d bytes, assigned" % (15 + a + b)
    for a, b in ((16373, 16374), (16374, 16374), (16374, 16375)):
        yield plain([text(a)]), operations(operation("#", 0, b"\x01"), operation("!", 0, text(b)), operation("#", 0, b"\x01")), 0, "an undo list of %d bytes, removed" % (20 + a + b)
    for a, b in ((16220, 16220), (16220, 16221), (16221, 16221)):
        t = plain([b"\x00", text(a)])
        plus = [operation("+", 0, b"\x01")] * 62
        for what, listed in (("first", [operation("=", 1, text(b)), operation("=", 1, b"\x01"), *plus]), ("last", [*plus, operation("=", 1, text(b)), operation("=", 1, b"\x01")]),
                             ("spliced", [*plus, *resizing(1, a + 3, b + 3), operation("=", 1, b"\x01")])):
            yield t, operations(*listed), 0, "an undo list of 64 operations and %d bytes, the long ones %s" % (327 + a + b, what)
    for n in (61, 62, 63):
        plus = [operation("+", 0, b"\x01")] * n
        for mark, field, gone in (("#", 0, b"\x02"), ("#", 1, b"\x02"), ("#", 0, b"\x03")):
            yield plain([b"\x00", b"\x01", b"\x02"]), operations(*plus, operation(mark, field, gone)), 0, "%d sums, then %d removed from %d" % (n, gone[0], field)
    for n in (63, 64):
        yield plain([b"\x05"] * n), operations(operation("#", 0, b"\x40")), 0, "all of %d fields removed" % n
        yield plain([b"\x05"] * n), operations(operation("#", 0, b"\x40"), operation("=", 0, b"\x06")), 0, "all of %d fields removed, then one" % n


def table_cases():
    """Fields come and go at both ends of a table that is full, and in its middle; each is told apart from the others."""
    def numbered(n):
        return plain([integer(i) for i in range(n)])

    for n in (63, 64):
        for f in (0, 1, n // 2 - 1, n // 2, n // 2 + 1, n - 1, n):
            yield numbered(n), one("!", f, b"\xc0"), 0, "%d fields and one at %d" % (n, f)
            yield numbered(n), one("#", f, b"\x01"), 0, "%d fields less one at %d" % (n, f)
            yield numbered(n), operations(operation("#", f, b"\x02"), operation("!", n - 2, b"\xc0"), operation("!", 0, b"\xc2"), operation("=", n, b"\xc3")), 0, "%d fields less two at %d, then three" % (n, f)
        yield numbered(n), one("=", n, b"\xc0"), 0, "%d fields and one behind" % n
    for what, place in (("front", lambda i: 0), ("rear", lambda i: i), ("middle", lambda i: i // 2), ("ends in turn", lambda i: i * (i % 2))):
        yield b"\x90", operations(*[operation("!", place(i), integer(i)) for i in range(64)]), 0, "64 come at the %s of none" % what
        yield numbered(64), operations(*[operation("#", place(63 - i), b"\x01") for i in range(64)]), 0, "64 go from the %s" % what
        yield numbered(63), operations(*[operation("!" if i % 2 == 0 else "#", place(62), integer(i) if i % 2 == 0 else b"\x01") for i in range(64)]), 0, "one comes and goes at the %s" % what
    for n in (1, 63, 64):
        yield numbered(n), operations(*[operation("#", 0, b"\x01"), operation("!", n - 1, b"\xc0")] * 32), 0, "from front to rear, fields: %d" % n
        yield numbered(n), operations(*[operation("#", n - 1, b"\x01"), operation("!", 0, b"\xc0")] * 32), 0, "from rear to front, fields: %d" % n
    yield numbered(64), operations(operation("#", 16, b"\x20"), *[operation("!", 16, integer(i)) for i in range(33)]), 0, "32 go from the middle, 33 come"
    yield numbered(32), operations(*[operation("!", 0, integer(i)) for i in range(32)], operation("!", 0, b"\xc0")), 0, "a table full by insertions, then 16"
    yield numbered(32), operations(*[operation("!", 32, integer(i)) for i in range(32)], operation("=", 64, b"\xc0")), 0, "a table full by appending, then 16"


def argument_cases():
    for n in (16382, 16383, 16384, 16385, 32700):
        for mark in "=!":
            for t in (b"\x90", b"\x91\x05"):
                yield t, one(mark, 0, text(sized(n))), 0, "%s by %d bytes" % (mark, n)
        yield plain([b"\xa0"]), one(":", 0, b"\x00", b"\x00", text(sized(n))), 0, "a splice by %d bytes" % n
        yield plain([b"\xa1z"]), one(":", 0, b"\x00", b"\x01", text(sized(n))), 0, "a splice of all by %d bytes" % n
        yield plain([b"\xc3"]), one(":", 0, b"\x00", b"\x01", text(sized(n))), 0, "a splice of no string by %d bytes" % n
        yield b"\x90", operations(operation("!", 0, text(sized(n))), operation("#", 0, b"\x01"), operation("!", 0, b"\x05")), 0, "%d bytes come and go" % n
        yield b"\x91\x05", operations(operation("=", 0, text(sized(n))), operation("*", 0, b"\x01")), 0, "%d bytes, then 12" % n


def press_cases():
    """(tuple, list, base, room, undo room, words): each refusal, also where 18 stands beside it; either buffer with exact room, one byte
    more and one less."""
    small = plain([b"\x05", b"\xa2ab", b"\xc3"])
    long = operations(*([operation("!", 0, b"\x07")] * 32 + [operation("#", 0, b"\x40")]))
    refused = [
        (b"\x91\xc1", b"\xc1", 2, "11, the list outside the rules too"),
        (b"\x91\x05\x05", b"\x90", 0, "11, no place"),
        (small, b"\x91\x93\xa1+\x00", 0, "12, with a place"),
        (small, b"\x90", 2, "12, the index base"),
        (small, operations(operation("+", 9, b"\x01"), operation("*", 0, b"\x01")), 0, "12 before 13"),
        (small, operations(operation("+", 0, b"\x01"), operation("+", 3, b"\x01")), 0, "13"),
        (small, operations(operation("+", 0, b"\x01"), operation("+", 1, b"\x01")), 0, "14"),
        (small, operations(operation("=", 0, integer(2**64 - 1)), operation("+", 0, b"\x01")), 0, "15"),
        (plain([b"\x07"] * 64), one("!", 0, b"\x01"), 0, "16"),
        (plain([b"\x01"]), long, 0, "17, 65 operations"),
        (plain([text(16377)]), operations(operation("=", 0, text(16377)), operation("=", 0, b"\x01")), 0, "17, 32,769 bytes"),
    ]
    for t, s, base, what in refused:
        for room, undo_room in ((600, 600), (0, 600), (600, 0), (0, 0), (1, 4)):
            yield t, s, base, room, undo_room, what
    accepted = [
        (bytes.fromhex("9305a26162c3"), bytes.fromhex("9193a15e0001"), 0, "01: xor"),
        (bytes.fromhex("91cd0005"), bytes.fromhex("9193a12b0101"), 1, "plus on a long form, from 1"),
        (b"\x90", b"\x90", 0, "nothing on nothing"),
        (b"\xdd\x00\x00\x00\x01\x05", b"\xdc\x00\x00", 0, "a long header, no operation"),
        (small, operations(operation("#", 0, b"\x02"), operation("!", 0, b"\x05"), operation("+", 0, b"\x01"), operation("=", 2, b"\xc0")), 0, "four in a row"),
        (plain([b"\x00"]), operations(*[operation("+", 0, b"\x01")] * 64), 0, "64 operations"),
        (plain([text(16376)]), operations(operation("=", 0, text(16377)), operation("=", 0, b"\x01")), 0, "an undo list of 32,768 bytes"),
        (plain([b"\xa0"]), operations(*resizing(0, 1, 16383)), 0, "a tuple of 16,384 bytes"),
        (plain([b"\xa0"]), operations(*resizing(0, 1, 16371, 16383), *again(0, 1)), 0, "three computed strings, an undo list of 32,768 bytes"),
    ]
    for t, s, base, what in accepted:
        number, _, w, u, _ = press(t, s, base, 40000, 40000)
        assert number == 0
        n, m, most = len(w), len(u), enough(t, s, base)
        for room, undo_room in ((most, most), (n, m), (n - 1, m), (n, m - 1), (n - 1, m - 1), (n + 1, m + 1), (0, m), (n, 0), (0, 0), (n, most), (most, m)):
            yield t, s, base, room, undo_room, what


def enough(t, s, base):
    """Room for what both calls write, and more."""
    return 40000 if max(len(call(t, s, base, 40000)[2]) for call in (update, undo)) > 500 else 600


def lines():
    for t, s, base, what in itertools.chain(cases(), work_cases(), undo_cases(), table_cases(), argument_cases()):
        rooms = [enough(t, s, base)]
        if len(t) < 40 and what.startswith(("01:", "four", "a string of 31")):
            n, u = len(update(t, s, base, 40000)[2]), len(undo(t, s, base, 40000)[2])
            rooms += sorted({0, max(n - 1, 0), n, n + 1, max(u - 1, 0), u, u + 1})
        for room in rooms:
            yield "u\t%s\t%s\t%d\t%d\t%s" % (packed(t), packed(s), base, room, what)
    for t, s, base, room, undo_room, what in press_cases():
        yield "p\t%s\t%s\t%d\t%d\t%d\t%s" % (packed(t), packed(s), base, room, undo_room, what)


def pressed(t, s, base, room, undo_room):
    number, at, w, u, place = press(t, s, base, room, undo_room)
    return [str(number), str(at), str(len(w)), str(len(u)), shown_place(place), total(w, room), total(u, undo_room)]


def answer(line):
    call, t, s, base, room = line.split("\t")[:5]
    t, s, base, room = unpacked(t), unpacked(s), int(base), int(room)
    if call == "p":
        return "\t".join(["p", *pressed(t, s, base, room, int(line.split("\t")[5]))])
    out = ["u"]
    for which in (update, undo):
        number, at, b, place = which(t, s, base, room)
        out += [str(number), str(at), str(len(b)), shown_place(place), shown(b, room)]
    return "\t".join(out + pressed(t, s, base, room, room))


if __name__ == "__main__":
    for line in lines():
        print(line if sys.argv[1:] == ["lines"] else answer(line))
