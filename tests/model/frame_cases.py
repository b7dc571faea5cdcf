#!/usr/bin/env python3
"""Frames for the program `program_cases`.

  frame_cases.py lines       the lines: `f` a frame to read; `w` a record, the bytes of its places and a room, to write
  frame_cases.py answers     what must be printed of them, by the second implementation
"""
import itertools
import os
import sys

import frames
from frames import BODY, NUMBERS, PLACES, map_of, shortest
from notation import packed, shown, unpacked
from values import shown_place

NAMES = ["sync", "schema_version", "space", "index", "limit", "offset", "iterator", "index_base"]
SELECT = bytes.fromhex("ce0000001b8201040001" "8610cd0200110014001300" "12ceffffffff2091cd0118")
LEAST_SELECT = bytes.fromhex("ce000000158201040001" "8310cd0200" "12ceffffffff2091cd0118")


def sized(contents):
    return shortest(len(contents)) + contents


def entry(key, value):
    return shortest(key) + value


def map_with(*entries):
    return bytes([0x80 + len(entries)]) + b"".join(entries)


FULL = {
    0x10: b"\x01", 0x11: b"\x00", 0x12: b"\x02", 0x13: b"\x00", 0x14: b"\x00", 0x15: b"\x01",
    0x20: b"\x91\x05", 0x21: b"\x92\x01\xa1a", 0x22: b"\xa1f", 0x23: b"\xa5guest", 0x27: b"\xa1e", 0x28: b"\x90",
    0x30: b"\xc0", 0x31: b"\xa3bad",
}
# a select, update and delete where nothing is left out, and what may be; all other kinds hold what they require
WHOLE = {0x01: [0x10, 0x11, 0x12, 0x13, 0x14, 0x20], 0x04: [0x10, 0x11, 0x20, 0x21], 0x05: [0x10, 0x11, 0x20]}
OPTIONAL = [0x11, 0x13, 0x14]
CODES = [0x00, 0x01, 0x02, 0x03, 0x04, 0x05, 0x06, 0x07, 0x08, 0x09, 0x0A, 0x40, 0x8000, 0x8002, 0x8FFF]


def head(code, *more):
    return map_with(entry(0x00, shortest(code)), *more)


def body(keys, changed={}):
    return bytes([0x80 + len(keys)]) + b"".join(entry(k, {**FULL, **changed}[k]) for k in keys)


def keys_of(code):
    return WHOLE.get(code, frames.required(code))


def left_out():
    """Selects, updates and deletes, the optional keys there or left out in every way; those there hold 0."""
    for code in WHOLE:
        for there in itertools.product((True, False), repeat=len(OPTIONAL)):
            missing = [k for k, is_there in zip(OPTIONAL, there) if not is_there]
            keys = sorted({*frames.required(code), *OPTIONAL} - {*missing})
            yield sized(head(code) + body(keys)), "code %x, left out: %s" % (code, " ".join("%x" % k for k in missing) or "nothing")


def to_read():
    yield SELECT, "the select of 001"
    yield SELECT + b"\xce", "the same and one byte"
    yield LEAST_SELECT, "the select of 001 without index, offset and iterator"
    yield bytes.fromhex("ce00000020" "8300ce0000000001cf0000000000000053" "05ce00000068" "8130dd00000001" "9106"), "the response to an insert of 001"
    yield sized(bytes.fromhex("810000" "8326810106" "5a14" "5331")), "a heartbeat's answer of 001, with a size"
    for n in range(len(SELECT)):
        yield SELECT[:n], "the same cut to %d" % n
    for name in ("requests", "responses"):
        path = os.path.join(os.path.dirname(__file__), "data", name + ".bin")
        s = open(path, "rb").read()
        while s:
            number, length, _, _ = frames.read(s)
            assert number == 0
            yield s[:length], "recorded, %s" % name
            s = s[length:]
    # the size number
    for b in range(256):
        yield bytes([b]), "first byte %02x" % b
    for size in (b"\x00", b"\xcc\x00", b"\xcd\x00\x00", b"\xce\x00\x00\xea\x60", b"\xce\x00\x00\xea\x61", b"\xcd\xea\x60", b"\xcd\xea\x61", b"\xcf" + b"\xff" * 8, b"\xce\x00\x00", b"\xe0", b"\xd0\x05", b"\xa1a"):
        yield size, "a size alone"
    for n in (59999, 60000, 60001):
        contents = head(0x00) + map_with(entry(0x30, b"\xc6" + (n - 10).to_bytes(4, "big") + bytes(n - 10)))
        assert len(contents) == n
        for size in (b"\xce" + n.to_bytes(4, "big"), b"\xcf" + n.to_bytes(8, "big"), b"\xcd" + n.to_bytes(2, "big")):
            yield size + contents, "%d bytes" % n
        yield b"\xcd" + n.to_bytes(2, "big") + contents[:-1], "%d bytes, one missing" % n
    # every code: its required keys, one missing, all keys, no body
    for code in CODES + [0x0B, 0x0C, 0x3F, 0x41, 0x42, 0x7F, 0x80, 0x7FFF, 0x9000, 2**64 - 1]:
        keys = keys_of(code)
        yield sized(head(code)), "code %x, no body" % code
        yield sized(head(code) + b"\x80"), "code %x, an empty body" % code
        yield sized(head(code) + body(sorted(FULL))), "code %x, all keys" % code
        for missing in keys or []:
            yield sized(head(code) + body([k for k in keys if k != missing])), "code %x without %x" % (code, missing)
        if keys:
            yield sized(head(code) + body(keys)), "code %x, its keys" % code
            yield sized(head(code) + body(keys[::-1])), "code %x, its keys turned round" % code
    # the optional keys left out; a required one missing beside them; held wrongly, which is 9 as before, and before 10
    yield from left_out()
    for code in WHOLE:
        required = frames.required(code)
        for missing in required:
            keys = [k for k in required if k != missing]
            yield sized(head(code) + body(keys)), "code %x without 11, 13, 14 and %x" % (code, missing)
        for key in OPTIONAL:
            for value in (b"\xce\xff\xff\xff\xff", b"\xcf\x00\x00\x00\x01\x00\x00\x00\x00", b"\xd0\x00", b"\xff", b"\xc0", b"\xa0", b"\x90"):
                yield sized(head(code) + body([key, *required], {key: value})), "code %x, %x holds %s" % (code, key, value.hex())
            yield sized(head(code) + body([key], {key: b"\xc0"})), "code %x, 9 before 10 by %x" % (code, key)
    # 4 and 5
    ping = head(0x40)
    yield sized(b"\xc1"), "header broken"
    yield sized(ping + b"\xc1"), "body broken"
    yield sized(ping + b"\x81\x30"), "body cut"
    yield shortest(len(ping) + 2) + ping + b"\x81\x30\xc0", "body runs past the frame, though bytes follow"
    yield sized(b"\x82\x00\x40"), "header cut"
    yield sized(ping + b"\x80\x80"), "bytes after the body"
    yield sized(ping + b"\x80\xc1"), "a broken byte after the body"
    yield sized(b"\xc0\xc0\xc0"), "5 before 6"
    yield sized(b"\xc0\xc1"), "4 before 6"
    for d in (15, 16, 17):
        deep = b"\x91" * (d - 2) + b"\x90"
        yield sized(ping + map_with(entry(0x30, deep))), "body %d deep" % d
        yield sized(map_with(entry(0x00, b"\x40"), entry(0x7E, deep))), "header %d deep" % d
    # 6
    for other in (b"\x90", b"\xc0", b"\x05", b"\xa0"):
        yield sized(other), "header %s" % other.hex()
        yield sized(ping + other), "body %s" % other.hex()
        yield sized(other + ping), "header %s and a body" % other.hex()
    for key in (b"\x7f", b"\xcc\x7f", b"\xcd\x00\x7f", b"\xcf" + bytes(7) + b"\x7f", b"\xcc\x80", b"\xcd\x00\x80", b"\xcf" + b"\xff" * 8, b"\xd0\x10", b"\xff", b"\xa1a", b"\xc0", b"\x90"):
        yield sized(map_with(entry(0x00, b"\x40"), key + b"\xc0")), "header key %s" % key.hex()
        yield sized(ping + map_with(key + b"\xc0")), "body key %s" % key.hex()
    # 7, also unknown keys and another width; 6 before 7; maps inside are not looked at
    yield sized(map_with(b"\x00\x40", b"\x00\x40")), "code twice"
    yield sized(map_with(b"\x00\x40", b"\xcc\x00\x40")), "code twice, another width"
    yield sized(map_with(b"\x00\x40", b"\x70\x00", b"\xcd\x00\x70\x00")), "an unknown key twice"
    yield sized(ping + map_with(b"\x10\x01", b"\xce\x00\x00\x00\x10\x01")), "space twice, another width"
    yield sized(map_with(b"\x00\x40", b"\x00\x40") + b"\xc0"), "6 in the body before 7 in the header"
    yield sized(map_with(b"\x01\x01", b"\x01\x01", b"\xa0\x01")), "6 after a key that stands twice"
    yield sized(ping + map_with(entry(0x30, b"\x82\x01\x01\x01\x01"))), "a key twice in a map inside"
    # 8
    yield sized(b"\x80"), "no code"
    yield sized(map_with(b"\x01\x05")), "no code, a sync"
    for value in (b"\xd0\x40", b"\xff", b"\xa1a", b"\xc0", b"\xca" + bytes(4), b"\x90"):
        yield sized(map_with(b"\x00" + value)), "code %s" % value.hex()
        yield sized(map_with(b"\x00" + value, b"\x01\xc0")), "8 before 9: code %s" % value.hex()
    yield sized(map_with(b"\x00\xcf" + bytes(7) + b"\x40")), "code in eight bytes"
    # 9
    for key in (0x01, 0x05, 0x02, 0x03, 0x04, 0x10, 0x30):
        for value in (b"\x05", b"\xcf" + b"\xff" * 8, b"\xd0\x05", b"\xff", b"\xc0", b"\xa1a", b"\x91\x01"):
            yield sized(map_with(b"\x00\x40", entry(key, value))), "header key %02x holds %s" % (key, value.hex())
    for key in sorted(FULL) + [0x16, 0x24, 0x25, 0x26, 0x29, 0x2F, 0x32, 0x52, 0x00, 0x01]:
        for value in (b"\x00", b"\x01", b"\x02", b"\xce\xff\xff\xff\xff", b"\xcf\x00\x00\x00\x01\x00\x00\x00\x00", b"\xd0\x00", b"\xff", b"\x90", b"\xdc\x00\x01\x05", b"\xa0", b"\xd9\x01a", b"\xc4\x00", b"\x80", b"\xc0", b"\xc3", b"\xcb" + bytes(8), b"\xd4\x01\x02"):
            yield sized(ping + map_with(entry(key, value))), "key %02x holds %s" % (key, value.hex())
    yield sized(map_with(b"\x00\x01", b"\x01\xc0")), "9 before 10"
    yield sized(map_with(b"\x00\x01") + map_with(entry(0x15, b"\x02"))), "9 before 10, in the body"


def record_bytes(record):
    out = record["code"].to_bytes(8, "big")
    for name in NAMES:
        out += (b"\x01" + record[name].to_bytes(8, "big")) if name in record else bytes(9)
    for name in PLACES:
        out += (b"\x01" + b"".join(x.to_bytes(8, "big") for x in record[name])) if name in record else bytes(17)
    return out


def to_write():
    s = b"".join(FULL[k] for k in sorted(FULL) if k not in NUMBERS)
    places, at = {}, 0
    for key in sorted(FULL):
        if key not in NUMBERS:
            places[BODY[key]] = (at, len(FULL[key]))
            at += len(FULL[key])
    numbers = {"space": 512, "index": 0, "limit": 4294967295, "offset": 70000, "iterator": 200, "index_base": 1}
    whole = {"sync": 4, "schema_version": 2**64 - 1, **numbers, **places}
    for code in CODES + [0x0B, 0x41, 0x7FFF, 0x9000]:
        record = {"code": code, **whole}
        yield record, s, 500, "code %x, everything" % code
        yield {"code": code}, s, 500, "code %x, nothing else" % code
        for name in list(numbers) + PLACES:
            yield {k: v for k, v in record.items() if k != name}, s, 500, "code %x without %s" % (code, name)
    for frame, what in left_out():
        number, _, record, _ = frames.read(frame)
        # the claim of document 02, held to on the model's side too
        assert number == 0 and frames.write(record, frame, 500)[1][5:] == frame[1:]
        yield record, frame, 500, what
        for name in [BODY[k] for k in frames.required(record["code"])]:
            yield {k: v for k, v in record.items() if k != name}, frame, 500, "%s, and %s" % (what, name)
    for code, key, value in itertools.product(WHOLE, OPTIONAL, (4294967295, 4294967296)):
        yield {"code": code, **whole, BODY[key]: value}, s, 500, "code %x, %s %d" % (code, BODY[key], value)
    ping = {"code": 0x40}
    exact = len(frames.write({"code": 0x40, **whole}, s, 500)[1])
    for room in (exact - 1, exact, exact + 1, 0):
        yield {"code": 0x40, **whole}, s, room, "room %d" % room
    for name in list(numbers) + ["sync", "schema_version"]:
        for value in (0, 1, 2, 127, 128, 255, 256, 65535, 65536, 4294967295, 4294967296, 2**64 - 1):
            yield {**ping, name: value}, b"", 100, "%s %d" % (name, value)
    for start, length in ((0, 0), (0, 3), (1, 2**64 - 1), (2**64 - 1, 1), (2**64 - 1, 2**64 - 1), (len(s), 0), (len(s), 1), (len(s) + 1, 0), (0, len(s) + 1), (1, 1), (0, 1)):
        for name in PLACES:
            yield {**ping, name: (start, length)}, s, 500, "%s at %d, %d" % (name, start, length)
    yield {**ping, "data": (0, 1)}, b"\xc1", 100, "a broken value"
    yield {**ping, "data": (0, 2)}, b"\xc0\xc0", 100, "two values"
    yield {"code": 0x0B, "data": (0, 1)}, b"\xc1", 100, "8 before 4"
    yield {**ping, "data": (0, 1), "index_base": 2}, b"\xc1", 100, "4 before 9"
    yield {"code": 0x01, "index_base": 2}, b"", 100, "9 before 10"
    for name in PLACES:
        for value in (b"\x90", b"\xdc\x00\x00", b"\xa0", b"\xd9\x00", b"\x05", b"\xc0", b"\x80", b"\xc4\x00"):
            yield {**ping, name: (0, len(value))}, value, 100, "%s holds %s" % (name, value.hex())
    for d in (14, 15, 16):
        deep = b"\x91" * (d - 1) + b"\x90"
        yield {**ping, "data": (0, len(deep))}, deep, 100, "data %d deep" % d
    for n in (59999, 60000, 60001):
        big = b"\xc6" + (n - 10).to_bytes(4, "big") + bytes(n - 10)
        for room in (n + 5, n + 4):
            yield {"code": 0x40, "data": (0, len(big))}, big, room, "contents of %d, room %d" % (n, room)
    big = b"\xc6" + (50000).to_bytes(4, "big") + bytes(50000)
    for name in PLACES:
        yield {**ping, "data": (0, len(big)), name: (0, len(big))}, big, 100, "large places"
    huge = b"\xdb" + (60000).to_bytes(4, "big") + bytes(60000)
    yield {"code": 0x8000, **{name: (0, len(huge)) for name in ("function", "user", "expression", "error", "data")}}, huge, 100, "places above the size, 3 before 18"


def lines():
    for s, what in to_read():
        yield "f\t%s\t%s" % (packed(s), what)
    for record, s, room, what in to_write():
        yield "w\t%s\t%s\t%d\t%s" % (packed(record_bytes(record)), packed(s), room, what)


def record_of(b):
    record = {"code": int.from_bytes(b[:8], "big")}
    for i, name in enumerate(NAMES):
        at = 8 + 9 * i
        if b[at]:
            record[name] = int.from_bytes(b[at + 1 : at + 9], "big")
    for i, name in enumerate(PLACES):
        at = 80 + 17 * i
        if b[at]:
            record[name] = (int.from_bytes(b[at + 1 : at + 9], "big"), int.from_bytes(b[at + 9 : at + 17], "big"))
    return record


def shown_record(record):
    numbers = [str(record.get("code", 0))] + [str(record.get(n, "-")) for n in NAMES]
    return numbers + ["%d,%d" % record[n] if n in record else "-" for n in PLACES]


def answer(line):
    fields = line.split("\t")
    if fields[0] == "f":
        number, length, record, place = frames.read(unpacked(fields[1]))
        return "\t".join(["f", str(number), str(length), *shown_record(record), shown_place(place)])
    number, frame = frames.write(record_of(unpacked(fields[1])), unpacked(fields[2]), int(fields[3]))
    return "w\t%d\t%d\t%s" % (number, len(frame), shown(frame, int(fields[3])))


if __name__ == "__main__":
    for line in lines():
        print(line if sys.argv[1:] == ["lines"] else answer(line))
