"""The notation of a field of bytes in the lines of `cases`: hexadecimal pairs, and `hh*N;` for N times the byte hh."""
import re
import zlib


def packed(b):
    """The notation of bytes."""
    out = []
    for run in re.finditer(rb"(.)\1*", bytes(b), re.S):
        text = run.group(0)
        n = len(text)
        out.append("%02x*%d;" % (text[0], n) if n > 8 else "%02x" % text[0] * n)
    return "".join(out)


def unpacked(text):
    out = bytearray()
    for pair, times in re.findall(r"([0-9a-f]{2})(?:\*(\d+);)?", text):
        out += bytes([int(pair, 16)]) * (int(times) if times else 1)
    return bytes(out)


def total(written, room):
    """The sum of a lent buffer that held 5a in every byte."""
    return "%08x" % zlib.adler32(written + b"\x5a" * (room - len(written)))


def shown(written, room):
    """What is printed of such a buffer: the sum of it all, and the first bytes written."""
    return "%s\t%s" % (total(written, room), written[:48].hex())
