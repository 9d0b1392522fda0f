#!/usr/bin/env python3
"""The numbers that a call leaves for each stored case, in the places that docs/LAYOUT.md gives them.

    python3 oracle/replay/numbers.py FOLDER    prints those of FOLDER/stdin

For each case the answer, then each row of the three lists, a line each, and an empty line. What is read
comes from the model of document 01 (model.py), the numbers of paths and terms from docs/.
"""
import os
import re
import sys

from model import called, parse_case, stored_cases

DOCS = os.path.join(os.path.dirname(os.path.abspath(__file__)), "..", "..", "docs")


# ---- one value


def place(text):
    """Absent is -1, 0, and empty 0, 0."""
    return (-1, 0) if text is None else (text.start, len(text.encode())) if text else (0, 0)


def number(n):
    """A date or a code, which may be absent."""
    return (-1 if n is None else n,)


def amount(n):
    return (n,)


def optional(n):
    return (0, 0) if n is None else (1, n)


def percentage(p):
    return (0, -1) if p is None else (p.unscaled, p.scale)


# ---- the answer


TERMS = (
    ("BT-5", place), ("BT-6", place), ("BT-7", number), ("BT-8", number), ("BT-9", number),
    ("BT-19", place), ("BT-20", place),
    "BG-10", ("BT-59", place),
    ("BT-60", place), (("BT-60", "scheme"), place), ("BT-61", place), (("BT-61", "scheme"), place),
    "BG-14", ("BT-73", number), ("BT-74", number),
    "BG-16", ("BT-81", place), ("BT-82", place), ("BT-83", place),
    "BG-18", ("BT-87", place), ("BT-88", place),
    "BG-19", ("BT-91", place), ("BT-89", place), ("BT-90", place),
    ("BT-106", amount), ("BT-107", optional), ("BT-108", optional), ("BT-109", amount), ("BT-110", optional),
    ("BT-111", optional), ("BT-112", amount), ("BT-113", optional), ("BT-114", optional), ("BT-115", amount),
)
BLANK = {"BT-%d" % n: 0 for n in (106, 109, 112, 115)}


def terms(terms, groups):
    for term in TERMS:
        if isinstance(term, str):
            yield int(term in groups)
        else:
            yield from term[1](terms.get(term[0]))


# ---- the rows


HELD = {
    1: (place, place, place),
    2: (amount, amount, place, percentage, place, place),
    3: (amount, optional, percentage, place, percentage, place, place),
    4: (amount, optional, percentage, place, percentage, place, place),
    5: (place, number),
}


def held(kind, *fields):
    row = [kind] + [n for show, field in zip(HELD[kind], fields) for n in show(field)]
    return row + [0] * (14 - len(row))


def listed(name):
    """The numbers of a list of docs/."""
    with open(os.path.join(DOCS, name)) as f:
        rows = re.findall(r"^\| ([0-9]+) \| ([^|]+) \|$", f.read(), re.M)
    return {label: int(n) for n, label in rows}


PATH_NUMBERS, TERM_NUMBERS = listed("PATHS.md"), listed("TERMS.md")


def entry(message, path, term, value):
    index = re.search(r"\[([0-9]+)\]", term or "")
    term_number = TERM_NUMBERS[re.sub(r"\[[0-9]+\]", "[i]", term)] if term else 0
    return [message, PATH_NUMBERS[path], term_number, int(index[1]) if index else -1, *place(value)]


# ---- the lines of a case


def numbers(case):
    refused, reading = called(*case)
    if refused:
        return [["answer", *refused, 0, 0, 0, *terms(BLANK, ())]]
    counts = [len(rows) for rows in (reading.held, reading.entries, reading.unmapped)]
    return [
        ["answer", 0, 0, *counts, *terms(reading.terms, reading.groups)],
        *(["held", *held(*row)] for row in reading.held),
        *(["entry", *entry(*row)] for row in reading.entries),
        *(["unmapped", parent, *place(name)] for (parent, _), name in sorted(reading.unmapped.items())),
    ]


def main():
    for case in stored_cases(sys.argv[1]):
        for line in numbers(parse_case(case)):
            print(*line)
        print()


if __name__ == "__main__":
    main()
