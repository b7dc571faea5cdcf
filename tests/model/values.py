#!/usr/bin/env python3
"""A second reader of MessagePack values, written from the MessagePack specification and documents 01 and 02 (3/12).

It shares nothing with the Rattle code but the form of the printed lines.

  values.py < crates/program_cases/stdin     compare what is accepted with the library python3-msgpack as well
"""
import struct
import sys

DEPTH = 16


class Broken(Exception):
    """The place of the first byte that spoils a value: an unused first byte, a container that goes one too deep, or the end
    of the bytes where more were due."""


# The specification's table of formats: first byte, last byte, name, length bytes, fixed payload.
FORMATS = [
    (0x00, 0x7F, "unsigned", 0, lambda b: 0),
    (0x80, 0x8F, "map", 0, lambda b: 2 * (b & 15)),
    (0x90, 0x9F, "array", 0, lambda b: b & 15),
    (0xA0, 0xBF, "string", 0, lambda b: b & 31),
    (0xC0, 0xC0, "nil", 0, lambda b: 0),
    (0xC1, 0xC1, "unused", 0, lambda b: 0),
    (0xC2, 0xC3, "boolean", 0, lambda b: 0),
    (0xC4, 0xC4, "bin", 1, lambda b: 0),
    (0xC5, 0xC5, "bin", 2, lambda b: 0),
    (0xC6, 0xC6, "bin", 4, lambda b: 0),
    (0xC7, 0xC7, "ext", 1, lambda b: 1),
    (0xC8, 0xC8, "ext", 2, lambda b: 1),
    (0xC9, 0xC9, "ext", 4, lambda b: 1),
    (0xCA, 0xCA, "float32", 0, lambda b: 4),
    (0xCB, 0xCB, "float64", 0, lambda b: 8),
    (0xCC, 0xCC, "unsigned", 0, lambda b: 1),
    (0xCD, 0xCD, "unsigned", 0, lambda b: 2),
    (0xCE, 0xCE, "unsigned", 0, lambda b: 4),
    (0xCF, 0xCF, "unsigned", 0, lambda b: 8),
    (0xD0, 0xD0, "signed", 0, lambda b: 1),
    (0xD1, 0xD1, "signed", 0, lambda b: 2),
    (0xD2, 0xD2, "signed", 0, lambda b: 4),
    (0xD3, 0xD3, "signed", 0, lambda b: 8),
    (0xD4, 0xD4, "ext", 0, lambda b: 2),
    (0xD5, 0xD5, "ext", 0, lambda b: 3),
    (0xD6, 0xD6, "ext", 0, lambda b: 5),
    (0xD7, 0xD7, "ext", 0, lambda b: 9),
    (0xD8, 0xD8, "ext", 0, lambda b: 17),
    (0xD9, 0xD9, "string", 1, lambda b: 0),
    (0xDA, 0xDA, "string", 2, lambda b: 0),
    (0xDB, 0xDB, "string", 4, lambda b: 0),
    (0xDC, 0xDC, "array", 2, lambda b: 0),
    (0xDD, 0xDD, "array", 4, lambda b: 0),
    (0xDE, 0xDE, "map", 2, lambda b: 0),
    (0xDF, 0xDF, "map", 4, lambda b: 0),
    (0xE0, 0xFF, "signed", 0, lambda b: 0),
]


def first(b):
    for low, high, name, width, fixed in FORMATS:
        if low <= b <= high:
            return name, width, fixed(b)
    raise ValueError(b)


def end_of(s, at, depth):
    """The place after the value at `at`; iterative, with a stack of how many values are still due."""
    due = [1]
    while due:
        if due[-1] == 0:
            due.pop()
            continue
        due[-1] -= 1
        if at >= len(s):
            raise Broken(len(s))
        name, width, fixed = first(s[at])
        if name == "unused":
            raise Broken(at)
        if name in ("array", "map") and len(due) > depth:
            raise Broken(at)
        if at + 1 + width > len(s):
            raise Broken(len(s))
        said = int.from_bytes(s[at + 1 : at + 1 + width], "big")
        at += 1 + width
        if name in ("array", "map"):
            due.append(said * (2 if name == "map" else 1) + fixed)
        elif at + said + fixed > len(s):
            raise Broken(len(s))
        else:
            at += said + fixed
    return at


def spoiled_at(s, depth):
    """The place of the byte that spoils the value at the front of `s`, or None where it is whole."""
    try:
        end_of(s, 0, depth)
    except Broken as broken:
        return broken.args[0]
    return None


def shown_place(place):
    """An absent place is printed as `-`, as an absent number of a frame is."""
    return "-" if place is None else str(place)


def integer(z):
    return "integer\t%d" % z if z >= 0 else "integer\t-1-%d" % (-1 - z)


def meaning(s, end):
    """The printed meaning of the whole value that ends at `end`."""
    name, width, fixed = first(s[0])
    start = 1 + width
    if name == "nil":
        return "nil"
    if name == "boolean":
        return "true" if s[0] == 0xC3 else "false"
    if name == "unsigned":
        return integer(s[0] if fixed == 0 else int.from_bytes(s[1:end], "big"))
    if name == "signed":
        return integer(struct.unpack("b", s[:1])[0] if fixed == 0 else int.from_bytes(s[1:end], "big", signed=True))
    if name in ("float32", "float64"):
        return "%s\t%s" % (name, s[1:end].hex())
    if name == "ext":
        return "ext\t%d\t%d\t%d" % (s[start], start + 1, end - start - 1)
    if name in ("string", "bin"):
        return "%s\t%d\t%d" % (name, start, end - start)
    return "%s\t0\t%d" % (name, end)


def form_line(b):
    """The printed line of a first byte."""
    name, width, fixed = first(b)
    return "%02x\t%s" % (b, name) + ("" if name == "unused" else "\t%d\t%d" % (width, fixed))


def line(text):
    s = bytes.fromhex(text)
    place = spoiled_at(s, DEPTH)
    if place is not None:
        return "%s\t4\t0\tabsent\t%s" % (text, shown_place(place))
    end = end_of(s, 0, DEPTH)
    return "%s\t0\t%d\t%s\t%s" % (text, end, meaning(s, end), shown_place(place))


def check(text):
    """The length and the scalars of what is accepted, by python3-msgpack."""
    import msgpack

    s = bytes.fromhex(text)
    try:
        end = end_of(s, 0, DEPTH)
    except Broken:
        return 0
    unpacker = msgpack.Unpacker(raw=True, strict_map_key=False, object_pairs_hook=list)
    unpacker.feed(s)
    value = unpacker.unpack()
    assert unpacker.tell() == end, (text, unpacker.tell(), end)
    said = meaning(s, end).split("\t")
    if said[0] == "integer":
        got = -1 - int(said[1][3:]) if said[1].startswith("-1-") else int(said[1])
        assert value == got and isinstance(value, int), (text, value, got)
    elif said[0] == "float64":
        assert struct.pack(">d", value).hex() == said[1] or value != value, (text, value)
    elif said[0] in ("string", "bin"):
        assert value == s[int(said[1]) : int(said[1]) + int(said[2])], (text, value)
    elif said[0] == "ext" and not isinstance(value, msgpack.Timestamp):
        assert value.code % 256 == int(said[1]) and value.data == s[int(said[2]) : end], (text, value)
    elif said[0] in ("nil", "true", "false"):
        assert value == {"nil": None, "true": True, "false": False}[said[0]], (text, value)
    return 1


def main():
    texts = [l.split("\t")[1] for l in sys.stdin.read().split("\n") if l.startswith("v\t")]
    print("%d of %d values agree with python3-msgpack" % (sum(check(t) for t in texts), len(texts)))


if __name__ == "__main__":
    main()
