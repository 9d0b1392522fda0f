#!/usr/bin/env python3
"""Says which must-fail edits cannot be applied: each `old:` text is to stand in its file exactly once.

  edits.py

It takes a second, proves nothing, and fails where there is one. `rt must-fail CRATE` tries the edits. Run it at
the repository's root.
"""
import glob
import os
import sys


def wrong(edit):
    """What is wrong with an edit, if anything is. Its pairs apply one after the other, each to a `file:`."""
    crate, path, old, texts, were = os.path.dirname(os.path.dirname(edit)), "", "", {}, {}
    with open(edit, encoding="utf-8") as f:
        lines = f.read().split("\n")
    for line in lines:
        word, _, rest = line.partition(":")
        text = rest[1:] if rest.startswith(" ") else rest
        if word == "file":
            path = os.path.join(crate, text.strip())
            if not os.path.isfile(path):
                return f"there is no {path}"
            if path not in texts:
                with open(path, encoding="utf-8") as f:
                    texts[path] = were[path] = f.read()
        elif word == "old":
            old = text
        elif word == "new":
            found = texts[path].count(old)
            if found != 1:
                return f"in {path} {found} times: {old}"
            texts[path] = texts[path].replace(old, text)
    return "it changes nothing" if texts == were else ""


def main():
    edits = sorted(glob.glob("crates/*/must-fail/*.edit"))
    said = [f"{edit}: {why}" for edit in edits for why in [wrong(edit)] if why]
    if said or not edits:
        sys.exit("\n".join(said or ["edits.py: run it at the repository's root"]))


main()
