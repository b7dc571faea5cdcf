#!/usr/bin/env python3
"""A second implementation of updates and undo lists, written from documents 01 and 02 (3/12) and sharing no code with the
library.

  update(tuple, list, base, room) -> (number, operation, bytes, place)
  undo(tuple, list, base, room)   -> (number, operation, bytes, place)
  press(tuple, list, base, room, undo room) -> (number, operation, tuple's bytes, undo list's bytes, place)
A place is that of the byte that spoils the tuple (11) or the list (12), or None.
"""
from frames import shortest
from values import Broken, end_of, first, spoiled_at

MAX_FIELDS, MAX_TUPLE, FIELD_DEPTH = 64, 16384, 12
MAX_OPERATIONS, MAX_LIST = 64, 32768
# 02, 3/12: "Here a tuple is one value to depth 13, a list to depth 14"
TUPLE_DEPTH, LIST_DEPTH = 13, 14


class Refused(Exception):
    """A refusal's number and the operation's index."""


def count_at(s, at):
    """The count of the array at `at` and the place after its header, or None."""
    if at >= len(s):
        return None
    name, width, fixed = first(s[at])
    if name != "array" or at + 1 + width > len(s):
        return None
    return int.from_bytes(s[at + 1 : at + 1 + width], "big") + fixed, at + 1 + width


def integer_at(s, at):
    if at >= len(s):
        return None
    name, _, fixed = first(s[at])
    if name not in ("unsigned", "signed") or at + 1 + fixed > len(s):
        return None
    if fixed == 0:
        return (s[at] if name == "unsigned" else s[at] - 256), at + 1
    return int.from_bytes(s[at + 1 : at + 1 + fixed], "big", signed=name == "signed"), at + 1 + fixed


def string_at(s, at):
    if at >= len(s):
        return None
    name, width, fixed = first(s[at])
    if name != "string" or at + 1 + width > len(s):
        return None
    n = int.from_bytes(s[at + 1 : at + 1 + width], "big") + fixed
    at += 1 + width
    return (s[at : at + n], at + n) if at + n <= len(s) else None


def value_at(s, at):
    try:
        end = end_of(s, at, FIELD_DEPTH)
    except Broken:
        return None
    return s[at:end], end


def fields_of(t):
    """11"""
    got = count_at(t, 0)
    if len(t) > MAX_TUPLE or got is None or got[0] > MAX_FIELDS:
        raise Refused(11, 0)
    n, at = got
    fields = []
    for _ in range(n):
        got = value_at(t, at)
        if got is None:
            raise Refused(11, 0)
        fields.append(got[0])
        at = got[1]
    if at != len(t):
        raise Refused(11, 0)
    return fields


def asked(condition):
    if not condition:
        raise Refused(12, 0)


def operation_at(s, at, base):
    got = count_at(s, at)
    asked(got is not None)
    n, at = got
    asked(at + 2 <= len(s) and s[at] == 0xA1)
    mark = chr(s[at + 1])
    got = integer_at(s, at + 2)
    asked(got is not None)
    f, at = got[0] - base, got[1]
    if n == 3 and mark in "+-&^|#":
        got = integer_at(s, at)
        asked(got is not None)
        asked(mark in "+-" or got[0] >= (1 if mark == "#" else 0))
        return (mark, f, got[0]), got[1]
    if n == 3 and mark in "=!":
        got = value_at(s, at)
        asked(got is not None)
        return (mark, f, got[0]), got[1]
    asked(n == 5 and mark == ":")
    position = integer_at(s, at)
    asked(position is not None and position[0] - base >= 0)
    count = integer_at(s, position[1])
    asked(count is not None and count[0] >= 0)
    argument = string_at(s, count[1])
    asked(argument is not None)
    return (mark, f, (position[0] - base, count[0], argument[0])), argument[1]


def operations_of(s, base):
    """12"""
    asked(base in (0, 1) and len(s) <= MAX_LIST)
    got = count_at(s, 0)
    asked(got is not None and got[0] <= MAX_OPERATIONS)
    n, at = got
    operations = []
    for _ in range(n):
        operation, at = operation_at(s, at, base)
        operations.append(operation)
    asked(at == len(s))
    return operations


def array_header(n):
    return bytes([0x90 + n]) if n < 16 else b"\xdc" + n.to_bytes(2, "big")


def string(s):
    n = len(s)
    if n < 32:
        return bytes([0xA0 + n]) + s
    if n < 256:
        return bytes([0xD9, n]) + s
    if n < 65536:
        return b"\xda" + n.to_bytes(2, "big") + s
    return b"\xdb" + n.to_bytes(4, "big") + s


def integer(z):
    if z >= 0:
        return shortest(z)
    if z >= -32:
        return bytes([256 + z])
    for first_byte, width in ((0xD0, 1), (0xD1, 2), (0xD2, 4), (0xD3, 8)):
        if z >= -(256**width) // 2:
            return bytes([first_byte]) + z.to_bytes(width, "big", signed=True)
    raise ValueError(z)


def plain(fields):
    return array_header(len(fields)) + b"".join(fields)


def step(fields, operation, i):
    """The fields after an operation, and the operations that take it back."""
    mark, f, argument = operation
    n = len(fields)
    if f < 0 or f > n or (f == n and mark not in "=!"):
        raise Refused(13, i)
    if mark in "=!" and (mark == "!" or f == n):
        after, back = fields[:f] + [argument] + fields[f:], [("#", f, shortest(1))]
    elif mark == "#":
        removed = fields[f : f + argument]
        after, back = fields[:f] + fields[f + argument :], [("!", f, x) for x in reversed(removed)]
    else:
        old = fields[f]
        if mark == "=":
            new = argument
        elif mark == ":":
            got = string_at(old, 0)
            if got is None:
                raise Refused(14, i)
            p, count, piece = argument
            new = string(got[0][:p] + piece + got[0][p:][count:])
        else:
            got = integer_at(old, 0)
            if got is None or (mark in "&^|" and got[0] < 0):
                raise Refused(14, i)
            x = got[0]
            z = {"+": x + argument, "-": x - argument, "&": x & argument, "^": x ^ argument, "|": x | argument}[mark]
            if not -(2**63) <= z < 2**64:
                raise Refused(15, i)
            new = integer(z)
        after, back = fields[:f] + [new] + fields[f + 1 :], [("=", f, old)]
    if len(after) > MAX_FIELDS or len(plain(after)) > MAX_TUPLE:
        raise Refused(16, i)
    return after, back


def run(t, s, base):
    fields = fields_of(t)
    operations = operations_of(s, base)
    back = []
    for i, operation in enumerate(operations):
        fields, own = step(fields, operation, i)
        back = own + back
    return fields, back


def refusal(refused, t, s):
    """11 and 12 have a place where the tuple or the list, read as one value, is broken, whatever else is wrong with it."""
    number, operation = refused.args
    place = spoiled_at(t, TUPLE_DEPTH) if number == 11 else spoiled_at(s, LIST_DEPTH) if number == 12 else None
    return number, operation, b"", place


def deliver(b, room):
    return (0, 0, b, None) if len(b) <= room else (18, 0, b"", None)


def undo_list(back):
    return plain([b"\x93\xa1" + mark.encode() + shortest(f) + argument for mark, f, argument in back])


def update(t, s, base, room):
    try:
        return deliver(plain(run(t, s, base)[0]), room)
    except Refused as refused:
        return refusal(refused, t, s)


def undo(t, s, base, room):
    try:
        back = run(t, s, base)[1]
    except Refused as refused:
        return refusal(refused, t, s)
    u = undo_list(back)
    if len(back) > MAX_OPERATIONS or len(u) > MAX_LIST:
        return 17, 0, b"", None
    return deliver(u, room)


def press(t, s, base, room, undo_room):
    """Both or neither: "11, 12, per operation 13 to 16, then 17, then 18 for either buffer"."""
    try:
        fields, back = run(t, s, base)
    except Refused as refused:
        number, operation, _, place = refusal(refused, t, s)
        return number, operation, b"", b"", place
    w, u = plain(fields), undo_list(back)
    if len(back) > MAX_OPERATIONS or len(u) > MAX_LIST:
        return 17, 0, b"", b"", None
    if len(w) > room or len(u) > undo_room:
        return 18, 0, b"", b"", None
    return 0, 0, w, u, None
