#!/usr/bin/env python3
"""Writes the lines that the program `views` must print.

    python3 tools/views.py            writes crates/views/stdout
    python3 tools/views.py --check    only says whether it is up to date

A line is a place (start and length) in an empty text or in `DE1EUR`, whether a value is there, and its
bytes. Document 01 ("Rows"): a view answers the bytes at its place, none where it is absent or outside the
text.
"""
import os
import sys

STDOUT = os.path.join(os.path.dirname(os.path.dirname(os.path.abspath(__file__))), "crates", "views", "stdout")
NUMBERS = (-(2**63), -2, -1, 0, 1, 3, 5, 6, 7, 2**32, 2**63 - 7, 2**63 - 1)


def line(text, start, length):
    there = start >= 0 and length >= 0 and start + length <= len(text)
    shown = text[start:start + length] if there else ""
    return "%d %d %s:%s\n" % (start, length, "there" if there else "none", shown)


def main(words):
    if words not in ([], ["--check"]):
        print(__doc__)
        return 2
    lines = "".join(line(text, start, length) for text in ("", "DE1EUR") for start in NUMBERS for length in NUMBERS)
    if words:
        stale = not os.path.exists(STDOUT) or open(STDOUT, "rb").read() != lines.encode("ascii")
        print("crates/views: " + ("out of date: stdout" if stale else "up to date"))
        return 1 if stale else 0
    with open(STDOUT, "wb") as f:
        f.write(lines.encode("ascii"))
    return 0


if __name__ == "__main__":
    sys.exit(main(sys.argv[1:]))
