#!/usr/bin/env python3
"""The worked cases of the program `program_cases`, and what it must print of them.

  cases.py lines   > crates/program_cases/stdin
  cases.py answers > crates/program_cases/stdout

`data/msgpack.tsv` holds published MessagePack vectors, `data/*.bin` recorded frames; all else is made here.
"""
import os
import sys

import damaged_values
import frame_cases
import listing_cases
import place_cases
import session_cases
import update_cases
import values

CALLS = {
    "v": lambda line: values.line(line.split("\t")[1]),
    "f": frame_cases.answer,
    "w": frame_cases.answer,
    "u": update_cases.answer,
    "p": update_cases.answer,
    "l": listing_cases.answer,
    "s": session_cases.answer,
}


# how many fields of a line say what the call is given; words follow
GIVEN = {"v": 2, "f": 2, "w": 4, "u": 5, "p": 6, "l": 2, "s": 6}


def given(line):
    return tuple(line.split("\t")[: GIVEN[line[0]]])


def lines():
    """Those of each call, then those of 02, 3/12 that do not stand among them."""
    there = set()
    for line in lines_by_call():
        there.add(given(line))
        yield line
    for line in place_cases.lines():
        if given(line) not in there:
            there.add(given(line))
            yield line


def lines_by_call():
    path = os.path.join(os.path.dirname(__file__), "data", "msgpack.tsv")
    for line in open(path, encoding="utf-8").read().split("\n"):
        if line and not line.startswith("#"):
            yield "v\t" + line
    for b, what in damaged_values.cases():
        yield "v\t%s\t%s\tours" % (bytes(b).hex(), what)
    yield from frame_cases.lines()
    yield from update_cases.lines()
    yield from listing_cases.lines()
    yield from session_cases.lines()


def main():
    if sys.argv[1:] == ["answers"]:
        for b in range(256):
            print(values.form_line(b))
    for line in lines():
        if line[0] in CALLS:
            print(line if sys.argv[1:] == ["lines"] else CALLS[line[0]](line))


if __name__ == "__main__":
    main()
