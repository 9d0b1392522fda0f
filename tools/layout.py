#!/usr/bin/env python3
"""Lays a settlement out for the program `reading` (document 01, "From the tree to the table").

  layout.py INVOICE.xml FOLDER    writes FOLDER/settlement.rec and FOLDER/settlement.txt

The settlement is the first ApplicableHeaderTradeSettlement of the file. An element's text is all its
direct text joined; attributes with a namespace are left out. A file with a DOCTYPE is not read, as the
original's parser reads none. What is wrong with a file is said in one line, with its name, and nothing is
written; nor does the first file stay where the second cannot be written.
"""
import os
import struct
import sys
import xml.etree.ElementTree as xml

SETTLEMENT = "ApplicableHeaderTradeSettlement"
RECORDS, BYTES = 256, 65536    # the most that the program `reading` takes


class Unfit(Exception):
    """What is wrong with a file."""


class Builder(xml.TreeBuilder):
    def doctype(self, name, public, system):
        raise Unfit("has a DOCTYPE, and such a file is not read")


def local(name):
    return name.rsplit("}", 1)[-1]


def settlement_of(source):
    """The settlement of an XML file."""
    try:
        tree = xml.parse(source, xml.XMLParser(target=Builder()))
    except (xml.ParseError, ValueError, LookupError) as e:
        raise Unfit(f"is not XML that can be read: {e}") from None
    for element in tree.iter():
        if local(element.tag) == SETTLEMENT:
            return element
    raise Unfit(f"has no {SETTLEMENT}: it is not a CII invoice")


def lay_out(root):
    """The records of an element and all below it, and the text that they point into."""
    records, text, places = [], bytearray(), {}

    def place(s):
        """Start and length; a name or text that was met before is not written again."""
        b = s.encode()
        if b not in places:
            places[b] = len(text)
            text.extend(b)
        return places[b], len(b)

    waiting = [(root, 0)]
    while waiting:
        element, parent = waiting.pop()
        number = len(records)
        direct = "".join([element.text or ""] + [child.tail or "" for child in element])
        records.append((1, parent, *place(local(element.tag)), *place(direct)))
        for name, value in element.attrib.items():
            if not name.startswith("{"):
                records.append((2, number, *place(name), *place(value)))
        waiting.extend((child, number) for child in reversed(element))
    return records, bytes(text)


def write(folder, files):
    """Writes the files; where one cannot be written, none stays, and the error has its name."""
    written = []
    try:
        for name, content in files.items():
            with open(os.path.join(folder, name), "wb") as f:
                written.append(f.name)
                f.write(content)
    except OSError as e:
        for name in written:
            os.remove(name)
        e.filename = e.filename or written[-1]
        raise


def main(words):
    if len(words) != 2:
        print(__doc__, file=sys.stderr)
        return 2
    source, folder = words
    try:
        records, text = lay_out(settlement_of(source))
        table = b"".join(struct.pack("<6I", *r) for r in records)
        write(folder, {"settlement.rec": table, "settlement.txt": text})
    except Unfit as e:
        print(f"layout.py: {source} {e}", file=sys.stderr)
        return 1
    except OSError as e:
        print(f"layout.py: {e.filename or source}: {e.strerror}", file=sys.stderr)
        return 1
    if len(records) > RECORDS or len(text) > BYTES:
        print(
            f"layout.py: {source} has {len(records)} records and {len(text)} bytes of text; the program `reading` "
            f"takes at most {RECORDS} and {BYTES}, and answers `unfit`",
            file=sys.stderr,
        )
    return 0


if __name__ == "__main__":
    sys.exit(main(sys.argv[1:]))
