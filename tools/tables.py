#!/usr/bin/env python3
"""Writes the cases of the program `tables` and the answers that it must give.

    python3 tools/tables.py            writes crates/tables/stdin and crates/tables/stdout
    python3 tools/tables.py --check    only says whether they are up to date

The answers come from the model below, written from document 01 ("From the tree to the table", "Where
each refusal is checked"), not from the code. A case is a line:

    NUMBER NUMBER .. :TEXT    a table and its text, \\HH being the byte HH
    zeros N M                 a table of N zeros and a text of M zero bytes

and its answer a line: `accepted`, or `refused` with number and record; then for each record i of the
first 64 its children, ` i>j,k`, and its attributes, ` i@j,k`; then for each later record j of these
` j=k`, k being the first record of j's kind and name under j's parent (0: none).
"""
import os
import random
import sys

ROOT = os.path.dirname(os.path.dirname(os.path.abspath(__file__)))
SETTLEMENT = b"ApplicableHeaderTradeSettlement"
NAMES = [b"PayeeTradeParty", b"ID", b"GlobalID", b"Name", b"ApplicableTradeTax", b"BasisAmount", b"Foo", b"\xc3\x84", b""]
ATTRIBUTES = [b"currencyID", b"schemeID", b"format"]
SHOWN = 64


# ---- the model


def clip(text, start, length):
    """The bytes at a place, those that the text has."""
    return text[start:start + length]


def is_utf8(b):
    try:
        b.decode("utf-8")
        return True
    except UnicodeDecodeError:
        return False


def refusal(table, text):
    """Refusal number and record, or None."""
    count = len(table) // 6
    record = lambda r: table[6 * r:6 * r + 6]
    if count == 0 or len(table) % 6:
        return 3, 0
    if count > 4096 or len(text) > 1048576:
        return 4, 0
    if record(0)[:2] != [1, 0]:
        return 5, 0
    for r in range(1, count):
        kind, parent = record(r)[:2]
        if kind not in (1, 2) or parent >= r or record(parent)[0] != 1:
            return 6, r
    for r in range(count):
        if any(record(r)[k] + record(r)[k + 1] > len(text) for k in (2, 4)):
            return 7, r
    for r in range(count):
        if not all(is_utf8(clip(text, record(r)[k], record(r)[k + 1])) for k in (2, 4)):
            return 8, r
    if clip(text, *record(0)[2:4]) != SETTLEMENT:
        return 9, 0
    return None


def under(table, kind, parent):
    """The records of a kind that name an earlier record as their parent, in table order."""
    return [r for r in range(len(table) // 6) if table[6 * r] == kind and table[6 * r + 1] == parent and parent < r]


def answer(table, text):
    refused = refusal(table, text)
    words = ["accepted"] if refused is None else ["refused %d %d" % refused]
    shown = min(len(table) // 6, SHOWN)
    for r in range(shown):
        for kind, mark in ((1, ">"), (2, "@")):
            found = under(table, kind, r)
            if found:
                words.append("%d%s%s" % (r, mark, ",".join(map(str, found))))
    name = lambda r: clip(text, table[6 * r + 2], table[6 * r + 3])
    for r in range(1, shown):
        same = [k for k in under(table, table[6 * r], table[6 * r + 1]) if name(k) == name(r)]
        words.append("%d=%d" % (r, same[0] if same else 0))
    return " ".join(words)


# ---- the cases


def settlement(rng, records, scattered=False):
    """A table that is accepted: a random tree below record 0, its names and texts in one text."""
    text = bytearray()
    table = []
    elements = []
    for r in range(records):
        attribute = r > 0 and rng.random() < 0.25
        parent = rng.choice(elements[-6:]) if elements else 0
        name = SETTLEMENT if r == 0 else rng.choice(ATTRIBUTES if attribute else NAMES)
        value = rng.choice([b"", b"EUR", b" 12.50 ", b"102", "ä€".encode()])
        places = []
        for piece in (name, value):
            at = bytes(text).find(piece) if scattered else -1
            if at < 0:
                at = len(text)
                text += piece
            places += [at, len(piece)]
        table += [2 if attribute else 1, parent] + places
        if not attribute:
            elements.append(r)
    return table, bytes(text)


def changed(table, record, field, value):
    table = list(table)
    table[6 * record + field] = value
    return table


def cases():
    rng = random.Random(20161116)
    root = [1, 0, 0, 31, 0, 0]
    text = SETTLEMENT + b"IDDE1\xff\xc3\xa4"
    child = [1, 0, 31, 2, 33, 3]
    yield "zeros", 0, 0
    for n in (1, 5, 7, 11, 13):
        yield "table", (root + child + [1])[:n], text
    for n, m in ((24582, 0), (24576, 0), (24577, 0), (24582, 65536), (6, 65536)):
        yield "zeros", n, m
    yield "table", root, text
    yield "table", root + child, text
    for field, value in ((0, 0), (0, 2), (0, 3), (0, 4294967295), (1, 1), (1, 4294967295)):
        yield "table", changed(root + child, 0, field, value), text
    for value in (0, 3, 4294967295):
        yield "table", changed(root + child + child, 2, 0, value), text
    for value in (2, 3, 4294967295):
        yield "table", changed(root + child + child, 2, 1, value), text
    yield "table", root + changed(child, 0, 0, 2) + changed(child, 0, 1, 1), text
    for record in (0, 1, 2):
        for start in (2, 4):
            for place, length in ((39, 1), (40, 0), (0, 40), (39, 0), (0, 39), (4294967295, 1), (4294967295, 4294967295), (1, 4294967295)):
                table = changed(root + child + child, record, start, place)
                yield "table", changed(table, record, start + 1, length), text
    for record in (0, 1, 2):
        for start in (2, 4):
            for place, length in ((36, 1), (37, 1), (38, 1), (37, 2), (36, 3), (35, 2)):
                table = changed(root + child + child, record, start, place)
                yield "table", changed(table, record, start + 1, length), text
    # a text that is UTF-8, cut inside characters of two, three and four bytes, also with length 0
    whole = SETTLEMENT + b"IDDE1\xc3\xa4\xe2\x82\xac\xf0\x9f\x98\x80"
    for start in (2, 4):
        for place in range(36, 46):
            for length in range(min(5, 46 - place)):
                table = changed(root + child + child, 2, start, place)
                yield "table", changed(table, 2, start + 1, length), whole
    for name in (b"", b"ApplicableHeaderTradeSettlemenT", SETTLEMENT[:-1], SETTLEMENT + b"s", b"CrossIndustryInvoice"):
        yield "table", [1, 0, 0, len(name), 0, 0], name
    # several refusals at once: the first in order counts, not the first in the table
    both = changed(changed(root + child + child, 1, 2, 99), 2, 0, 7)
    yield "table", both, text
    yield "table", changed(both, 0, 1, 5), text
    yield "table", changed(changed(root + child + child, 1, 4, 36), 2, 5, 99), text
    yield "table", changed(changed(root + child + child, 1, 4, 36), 0, 3, 30), text
    # an attribute's own attributes and children, a later parent, and two attributes of one name
    attribute = [2, 0, 31, 2, 33, 3]
    yield "table", root + attribute + attribute + child + changed(attribute, 0, 1, 3), text
    yield "table", root + attribute + changed(attribute, 0, 1, 1) + changed(child, 0, 1, 1), text
    yield "table", root + changed(child, 0, 1, 2) + child, text
    for records in (1, 2, 3, 5, 8, 13, 21, 34, 63, 64, 65, 200):
        for scattered in (False, True):
            table, text = settlement(rng, records, scattered)
            yield "table", table, text
    for _ in range(160):
        table, text = settlement(rng, rng.randrange(1, 14), rng.random() < 0.5)
        for _ in range(rng.randrange(1, 3)):
            at = rng.randrange(len(table))
            table[at] = rng.choice([0, 1, 2, 3, table[at] + 1, max(table[at], 1) - 1, len(text), len(table) // 6, 4294967295])
        if rng.random() < 0.3 and text:
            at = rng.randrange(len(text))
            text = text[:at] + bytes([rng.choice([0x80, 0xC3, 0xFF, 0x41])]) + text[at + 1:]
        yield "table", table, text


def shown(text):
    return "".join(chr(b) if 32 < b < 127 and b != 0x5C else "\\%02x" % b for b in text)


def files():
    lines, answers = [], []
    for kind, a, b in cases():
        if kind == "zeros":
            lines.append("zeros %d %d" % (a, b))
            answers.append(answer([0] * a, bytes(b)))
        else:
            lines.append(" ".join(map(str, a)) + " :" + shown(b))
            answers.append(answer(a, b))
    return "\n".join(lines) + "\n", "\n".join(answers) + "\n"


def main(words):
    if words not in ([], ["--check"]):
        print(__doc__)
        return 2
    stale = []
    for name, content in zip(("stdin", "stdout"), files()):
        path = os.path.join(ROOT, "crates", "tables", name)
        if not os.path.exists(path) or open(path, "rb").read() != content.encode("ascii"):
            stale.append(name)
            if not words:
                with open(path, "wb") as f:
                    f.write(content.encode("ascii"))
    if words:
        print("crates/tables: " + ("out of date: " + ", ".join(stale) if stale else "up to date"))
        return 1 if stale else 0
    return 0


if __name__ == "__main__":
    sys.exit(main(sys.argv[1:]))
