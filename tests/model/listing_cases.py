#!/usr/bin/env python3
"""Streams of frames for the program `program_cases`: lines `l`, each with the bytes that are listed, and the lines that must be printed."""
import os

import frames
from frame_cases import CODES, LEAST_SELECT, SELECT, body, entry, head, keys_of, sized
from frames import shortest
from notation import packed, unpacked

LIMIT = 65536
PING = sized(head(0x40))


def recorded(name):
    return open(os.path.join(os.path.dirname(__file__), "data", name + ".bin"), "rb").read()


def answered(length):
    """An answer of so many bytes in all, its size in five."""
    data = length - 13
    return b"\xce" + (length - 5).to_bytes(4, "big") + head(0x00) + b"\x81\x30\xc5" + data.to_bytes(2, "big") + bytes(data)


def synced(code, sync):
    return sized(head(code, entry(0x01, shortest(sync))) + body(keys_of(code)))


def streams():
    yield b"", "nothing"
    yield SELECT + b"\xce", "01's example"
    yield SELECT, "the select of 001"
    yield SELECT[:-1], "the select of 001 without its last byte"
    yield PING, "a ping without a sync"
    yield PING + SELECT + PING, "syncs absent and there"
    yield PING + LEAST_SELECT + PING, "a select without index, offset and iterator"
    yield b"".join(synced(code, 9) for code in CODES), "every kind"
    yield b"".join(sized(head(code) + body(keys_of(code))) for code in CODES), "every kind, no sync"
    yield b"".join(synced(0x40, n) for n in (0, 9, 10, 99, 100, 2**32 - 1, 2**63, 10**19, 2**64 - 1)), "syncs of every length"
    yield PING * 101, "frames counted above 100"
    yield recorded("requests") + recorded("responses"), "recorded traffic"
    yield recorded("requests") + recorded("responses") + SELECT + b"\xce", "recorded traffic, 01's select and one more byte"
    yield PING + b"\xe0", "then 2"
    yield PING + b"\x00", "then 3"
    yield PING + b"\xce\x00\x00\xea\x61", "then 3: 60,001"
    yield PING + b"\xce\x00\x00\xea\x60", "then 60,000 that have not come"
    yield PING + b"\xcd\x01", "then a size cut short"
    yield PING + sized(b"\xc1"), "then 4"
    yield PING + sized(head(0x40) + b"\x80\x80"), "then 5"
    yield PING + sized(b"\x90"), "then 6"
    yield PING + sized(b"\x82\x00\x40\x00\x40"), "then 7"
    yield PING + sized(head(0x41)), "then 8"
    yield PING + sized(head(0x40) + b"\x81\x10\xc0"), "then 9"
    yield PING + sized(head(0x01)), "then 10"
    yield answered(50000) + answered(LIMIT - 50000), "%d bytes" % LIMIT
    yield answered(50000) + answered(LIMIT - 50000 - 1) + b"\x03", "%d bytes, the last frame begun" % LIMIT
    yield answered(50000) + answered(LIMIT - 50000) + b"\x03", "%d bytes" % (LIMIT + 1)
    yield bytes(LIMIT + 1), "%d bytes of no frame" % (LIMIT + 1)


def lines():
    for s, what in streams():
        yield "l\t%s\t%s" % (packed(s), what)


def answer(line):
    return frames.listing(unpacked(line.split("\t")[1])).rstrip("\n")
