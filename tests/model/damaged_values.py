"""Damaged and border values for the program `program_cases`: bytes, and what they are."""


LONG = [
    (b"\xd9\x05hello", "str 8"),
    (b"\xda\x00\x05hello", "str 16"),
    (b"\xdb\x00\x00\x00\x05hello", "str 32"),
    (b"\xc4\x03abc", "bin 8"),
    (b"\xc8\x00\x02\x07ab", "ext 16"),
    (b"\xd8\x01" + bytes(range(16)), "fixext 16"),
    (b"\xcb\x7f\xf8\x00\x00\x00\x00\x00\x01", "float 64 NaN"),
    (b"\xcf\x01\x02\x03\x04\x05\x06\x07\x08", "uint 64"),
    (b"\x93\x01\xa2ab\x91\xc3", "array in an array"),
    (b"\x82\x01\x92\x02\x03\xa1k\x80", "map"),
    (b"\xde\x00\x01\x01\x02", "map 16"),
    (b"\xdf\x00\x00\x00\x01\x01\x02", "map 32"),
]


def alike():
    """Items with the same head in a row: as many as are counted, one more after them, the last of them cut or another."""
    for head, name in ((b"\xd9\x02", "str 8"), (b"\xc4\x02", "bin 8"), (b"\xc7\x01\x05", "ext 8")):
        item = head + b"ab"[: 4 - len(head)]
        for n in (1, 2, 3, 15):
            row = bytes([0x90 + n]) + item * n
            yield (row, "%d times %s" % (n, name))
            yield (row + item, "%d times %s, and one more after them" % (n, name))
            for k in (1, 2, 3):
                yield (row[:-k], "%d times %s, cut by %d" % (n, name, k))
            yield (row[:-4] + bytes([head[0], 1]) + item[2:], "%d times %s, the last shorter by a byte" % (n, name))
            yield (row[:-4] + bytes([head[0], 3]) + item[2:], "%d times %s, the last longer by a byte" % (n, name))
            yield (row[:-4] + b"\xc1" + item[1:], "%d times %s, c1 in place of the last" % (n, name))
        yield (b"\x82" + item * 4, "a map of four %s" % name)
        yield (b"\x92\x92" + item * 3, "%s in an array and after it" % name)


def ones():
    """Arrays of one in one another, and what is inside them."""
    inside = ((b"\x07", "a number"), (b"\x90", "an empty array"), (b"\xc1", "c1"), (b"", "nothing"), (b"\xd9\x01a", "str 8"), (b"\x92\x01\x02", "two numbers"))
    for n in (1, 3, 4, 5, 8, 11, 15, 16, 17):
        for content, name in inside:
            yield (b"\x91" * n + content, "%d arrays of one, %s in them" % (n, name))
        yield (b"\x92" + (b"\x91" * n + b"\x01") * 2, "twice %d arrays of one" % n)


def cases():
    yield from values_alone()
    yield from alike()
    yield from ones()


def values_alone():
    for b in range(256):
        yield ([b] + [0] * 20, "first byte %02x and zeros" % b)
        yield ([b], "first byte %02x alone" % b)
    for whole, name in LONG:
        for n in range(len(whole)):
            yield (whole[:n], "%s cut to %d" % (name, n))
        yield (whole + b"\xc1", "%s, c1 after it" % name)
    for whole, name in LONG[8:]:
        for n in range(1, len(whole)):
            yield (whole[:n] + b"\xc1" + whole[n + 1 :], "%s, c1 at %d" % (name, n))
    for d in (15, 16, 17, 18):
        yield ([0x91] * (d - 1) + [0x90], "arrays %d deep" % d)
        yield ([0x81, 0x00] * (d - 1) + [0x80], "maps %d deep" % d)
        yield ([0x91] * (d - 1) + [0xDC], "arrays %d deep, the last cut" % d)
        yield ([0x91] * (d - 1) + [0xC1], "arrays %d deep, then c1" % (d - 1))
    yield ([0xDD, 0xFF, 0xFF, 0xFF, 0xFF], "array of 2^32 - 1, nothing after it")
    yield ([0xDD, 0xFF, 0xFF, 0xFF, 0xFF] + [0x01] * 9, "array of 2^32 - 1, nine values")
    yield ([0xDF, 0xFF, 0xFF, 0xFF, 0xFF] + [0x01] * 9, "map of 2^32 - 1, nine values")
    yield ([0xDB, 0xFF, 0xFF, 0xFF, 0xFF] + [0x61] * 9, "str 32 of 2^32 - 1, nine bytes")
    yield ([0xC9, 0xFF, 0xFF, 0xFF, 0xFF, 0x01], "ext 32 of 2^32 - 1, its type")
    yield ([0xDD, 0xFF, 0xFF, 0xFF, 0xFF] * 17, "arrays of 2^32 - 1, 17 deep")
    yield ([0xDD, 0x00, 0x00, 0x00, 0x01, 0x07], "array 32 of one value")
    yield ([0xDC, 0x00, 0x0F] + [0x01] * 15, "array 16 of fifteen values")
    yield ([0x92, 0x90], "an empty array, then the end")
    yield ([], "no bytes")
