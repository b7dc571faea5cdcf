#!/usr/bin/env python3
"""A second reader and writer of frames, written from documents 01 (with 000 and 001) and 02 (2/12, 3/12) and sharing no code
with the library.

  read(bytes)                 -> (number, length, record, place)
  write(record, bytes, room)  -> (number, frame)
A record is a dict: 'code' a number, and for each other name either nothing or a number, or (start, length). An absent number
is nothing and not 0, though index, offset, iterator and index base count as 0 then. A place is that of the byte that spoils
header or body, counted from the frame's first byte, or None; only 4 has one, and the writer gives none.
"""
from values import Broken, end_of, first

MAX_SIZE = 60000
HEADER = {0x00: "code", 0x01: "sync", 0x05: "schema_version"}
NUMBERS = {0x10: "space", 0x11: "index", 0x12: "limit", 0x13: "offset", 0x14: "iterator", 0x15: "index_base"}
ARRAYS = {0x20: "key", 0x21: "tuple", 0x28: "ops"}
STRINGS = {0x22: "function", 0x23: "user", 0x27: "expression", 0x31: "error"}
ANY = {0x30: "data"}
BODY = {**NUMBERS, **ARRAYS, **STRINGS, **ANY}
PLACES = ["key", "tuple", "function", "user", "expression", "ops", "data", "error"]
# 02, 2/12: "From now on 0x11, 0x13 and 0x14 are required nowhere"
REQUIRED = {
    0x01: [0x10, 0x12, 0x20],
    0x02: [0x10, 0x21],
    0x03: [0x10, 0x21],
    0x04: [0x10, 0x20, 0x21],
    0x05: [0x10, 0x20],
    0x06: [0x22, 0x21],
    0x0A: [0x22, 0x21],
    0x07: [0x23, 0x21],
    0x08: [0x27, 0x21],
    0x09: [0x10, 0x21, 0x28],
    0x40: [],
    0x00: [],
}
KINDS = {
    0x01: "select", 0x02: "insert", 0x03: "replace", 0x04: "update", 0x05: "delete", 0x06: "call_16", 0x07: "auth",
    0x08: "eval", 0x09: "upsert", 0x0A: "call", 0x40: "ping", 0x00: "ok",
}


def required(code):
    if 0x8000 <= code <= 0x8FFF:
        return [0x31]
    return REQUIRED.get(code)


def kind(code):
    return "error" if 0x8000 <= code <= 0x8FFF else KINDS[code]


def unsigned(s, at):
    """(number, end), None where other bytes stand there, or 'cut'."""
    if at >= len(s):
        return "cut"
    name, width, fixed = first(s[at])
    if name != "unsigned":
        return None
    if fixed == 0:
        return s[at], at + 1
    if at + 1 + fixed > len(s):
        return "cut"
    return int.from_bytes(s[at + 1 : at + 1 + fixed], "big"), at + 1 + fixed


def entries(s, at):
    """The keys of the whole map at `at` with the places of their values, or None where it is no map or a key is no key."""
    name, width, fixed = first(s[at])
    if name != "map":
        return None
    count = int.from_bytes(s[at + 1 : at + 1 + width], "big") + fixed // 2
    at += 1 + width
    found = []
    for _ in range(count):
        key = unsigned(s, at)
        value = end_of(s, at, 16)
        end = end_of(s, value, 16)
        if key is None or key == "cut" or key[0] > 127:
            return None
        found.append((key[0], value, end - value))
        at = end
    return found


def number_of(s, place):
    got = unsigned(s, place[0])
    return None if got is None or got == "cut" else got[0]


def suits(s, key, place):
    """9, for the place of a value under a known body key."""
    if key in NUMBERS:
        n = number_of(s, place)
        return n is not None and n <= (1 if key == 0x15 else 0xFFFFFFFF)
    name = first(s[place[0]])[0]
    return name == "array" if key in ARRAYS else name == "string" if key in STRINGS else True


def contents(s, at):
    """4 to 10, on the frame's bytes from its size number to its end: (number, record, place)."""
    try:
        body_at = end_of(s, at, 16)
        end = end_of(s, body_at, 16) if body_at < len(s) else body_at
    except Broken as broken:
        return 4, {}, broken.args[0]
    number, record = judged(s, at, body_at, end)
    return number, record, None


def judged(s, at, body_at, end):
    """5 to 10, on a whole header and, if bytes are left, a whole body that ends at `end`: (number, record)."""
    if end != len(s):
        return 5, {}
    header = entries(s, at)
    if header is None:
        return 6, {}
    body = entries(s, body_at) if body_at < len(s) else []
    if body is None:
        return 6, {}
    for found in (header, body):
        if len({k for k, _, _ in found}) != len(found):
            return 7, {}
    head = {k: (a, n) for k, a, n in header}
    rest = {k: (a, n) for k, a, n in body}
    code = number_of(s, head[0x00]) if 0x00 in head else None
    if code is None or required(code) is None:
        return 8, {}
    for key in (0x01, 0x05):
        if key in head and number_of(s, head[key]) is None:
            return 9, {}
    for key in BODY:
        if key in rest and not suits(s, key, rest[key]):
            return 9, {}
    if any(key not in rest for key in required(code)):
        return 10, {}
    record = {"code": code}
    for key in (0x01, 0x05):
        if key in head:
            record[HEADER[key]] = number_of(s, head[key])
    for key, name in BODY.items():
        if key in rest:
            record[name] = number_of(s, rest[key]) if key in NUMBERS else rest[key]
    return 0, record


def read(s):
    got = unsigned(s, 0)
    if got is None:
        return 2, 0, {}, None
    if got == "cut":
        return 1, 0, {}, None
    size, at = got
    if not 1 <= size <= MAX_SIZE:
        return 3, 0, {}, None
    if at + size > len(s):
        return 1, 0, {}, None
    number, record, place = contents(s[: at + size], at)
    return number, (at + size if number == 0 else 0), record, place


def shortest(n):
    if n < 128:
        return bytes([n])
    for first_byte, width in ((0xCC, 1), (0xCD, 2), (0xCE, 4), (0xCF, 8)):
        if n < 256**width:
            return bytes([first_byte]) + n.to_bytes(width, "big")
    raise ValueError(n)


def map_of(pairs):
    """Fewer than 16 entries, which is all that a frame has."""
    return bytes([0x80 + len(pairs)]) + b"".join(bytes([k]) + v for k, v in pairs)


def write(record, s, room):
    code = record["code"]
    if required(code) is None:
        return 8, b""
    for name in PLACES:
        if name in record:
            start, length = record[name]
            if start + length > len(s):
                return 4, b""
            piece = s[start : start + length]
            try:
                if end_of(piece, 0, 15) != length:
                    return 4, b""
            except Broken:
                return 4, b""
    for key, name in BODY.items():
        if name in record:
            if key in NUMBERS:
                if record[name] > (1 if key == 0x15 else 0xFFFFFFFF):
                    return 9, b""
            elif not suits(s, key, record[name]):
                return 9, b""
    if any(BODY[key] not in record for key in required(code)):
        return 10, b""
    header = [(0, shortest(code))] + [(k, shortest(record[HEADER[k]])) for k in (1, 5) if HEADER[k] in record]
    body = []
    for key in sorted(BODY):
        name = BODY[key]
        if name in record:
            held = record[name]
            body.append((key, shortest(held) if key in NUMBERS else s[held[0] : held[0] + held[1]]))
    inside = map_of(header) + map_of(body)
    if len(inside) > MAX_SIZE:
        return 3, b""
    frame = b"\xce" + len(inside).to_bytes(4, "big") + inside
    return (18, b"") if len(frame) > room else (0, frame)


def listing(s):
    """What the listing program writes."""
    lines = ["frame\tkind\tsync\tbytes"]
    if len(s) > 65536:
        return "\n".join(lines + ["end\tlong\t65536"]) + "\n"
    at = n = 0
    while at < len(s):
        number, length, record, _ = read(s[at:])
        if number == 1:
            return "\n".join(lines + ["end\tincomplete\t%d" % (len(s) - at)]) + "\n"
        if number:
            return "\n".join(lines + ["end\trefused\t%d" % number]) + "\n"
        n += 1
        lines.append("%d\t%s\t%s\t%d" % (n, kind(record["code"]), record.get("sync", "-"), length))
        at += length
    return "\n".join(lines + ["end\tclean\t0"]) + "\n"


if __name__ == "__main__":
    import sys

    sys.stdout.write(listing(sys.stdin.buffer.read()))
