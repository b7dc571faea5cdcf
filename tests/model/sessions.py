#!/usr/bin/env python3
"""A second implementation of sessions, written from document 02 (1/12, 3/12) on top of the reader of `frames.py`.

  opened(carry)                -> (number, session)
  reset()                      -> session
  feed(session, piece, carry)  -> Answer, and `carry`, a bytearray, is changed
A session is (offset, held, refused, place), the place of a refused frame or None. It knows no sizes: a frame is settled by the
first of its bytes with which the reader answers something other than 1.
"""
from collections import namedtuple

import frames

CARRY_ROOM = 60009
UNFINISHED = 1
SHORT_CARRY = 19

Session = namedtuple("Session", "offset held refused place", defaults=[None])
Answer = namedtuple("Answer", "number in_carry taken offset length record session place", defaults=[None])


def reset():
    return Session(0, 0, 0)


def opened(carry):
    return (SHORT_CARRY if len(carry) < CARRY_ROOM else 0), reset()


def settled_by(s):
    """How many bytes of `s` settle its frame, or None where more are to come."""
    for n in range(1, len(s) + 1):
        if frames.read(s[:n])[0] != UNFINISHED:
            return n
    return None


def repeated(number, session, place):
    """Nothing is taken, nothing changes."""
    return Answer(number, False, 0, session.offset, 0, {}, session, place)


def unfinished(session, begun, piece, carry):
    """All is taken, and stands behind what was begun."""
    held = len(begun) + len(piece)
    carry[len(begun) : held] = piece
    return Answer(UNFINISHED, False, len(piece), session.offset, 0, {}, Session(session.offset, held, 0))


def settled(session, begun, piece, carry, end):
    """The frame's missing bytes are taken; they are copied only where a part of it is in the carry buffer."""
    taken = max(end - len(begun), 0)
    if begun:
        carry[len(begun) : len(begun) + taken] = piece[:taken]
    number, length, record, place = frames.read((begun + piece)[:end])
    if number == 0:
        after = Session((session.offset + length) % 2**64, 0, 0)
    else:
        after = Session(session.offset, end if begun else 0, number, place)
    return Answer(number, number == 0 and len(begun) > 0, taken, session.offset, length, record, after, place)


def feed(session, piece, carry):
    if len(carry) < CARRY_ROOM:
        return repeated(SHORT_CARRY, session, None)
    if session.refused:
        return repeated(session.refused, session, session.place)
    begun = bytes(carry[: session.held])
    end = settled_by(begun + piece)
    if end is None:
        return unfinished(session, begun, piece, carry)
    return settled(session, begun, piece, carry, end)


def view(answer, piece, carry):
    """The bytes of the frame that a feed shows."""
    return bytes((carry if answer.in_carry else piece)[: answer.length])


def uncut(s):
    """What all feeds of `s` together must show, told without a session: frames with their offsets, and the refusal or 0 with its
    offset and place."""
    found, at = [], 0
    while True:
        number, length, record, place = frames.read(s[at:])
        if number:
            return found, (0 if number == UNFINISHED else number), at, place
        found.append((at, s[at : at + length], record))
        at += length
