#!/usr/bin/env python3
"""Brings the names of this repository's definitions and lemmas to the spelling of today's Rattle: snake case for
words (definitions, lemmas, constructors, fields), an apostrophe for a prime. It was run once, after the kit's port.py.

    respell.py            rewrites crates/, docs/ and README.md in place, below the current folder
    respell.py --list     prints each name with its new spelling, and those that keep their dash

Names of src/, what is imported from the kit, strings, and what Rattle makes of the code (goals, steps) stay. A dash
becomes `_`, but where two names would then be one: there it stays.
"""
import collections
import glob
import os
import re
import sys

WORD = r"[^\s(){}\[\].,;:λ◌«»⟦⟧\"`|]+"
DECLARED = re.compile(rf"^ *(?:(?:abbrev|unfoldable|opaque|pub|private) )*({WORD}(?: {WORD})*) :(?= |$)", re.M)
DATA = re.compile(rf"^ *(?:(?:unfoldable|pub) )*(?:data|record|ruleset) ({WORD})", re.M)
USE = re.compile(r"^[ \t]*(?:(?:pub|ghost|unfoldable) )*use ([^\s{}]+)\.\{([^{}]*)\}", re.M)
COMMENT = re.compile(r"--.*")
# a string, a comment, or a word with what stands before it
TOKEN = re.compile(rf'"(?:[^"\\]|\\.)*"|--[^\n]*|(?:(?<![\w\'])(?:tie|goal)\.)?{WORD}')


def read(path):
    with open(path, encoding="utf-8") as f:
        return f.read()


def files(pattern):
    return sorted(p for p in glob.glob(pattern, recursive=True) if "/out/" not in p)


def of_function(path):
    """Whether a file of proofs/ is the proof of one function."""
    named = os.path.basename(path) in ("Proof.antt", "Invariants.antt", "Answers.antt")
    return named and os.path.basename(os.path.dirname(path)) not in ("specs", "proofs")


def snake(name):
    """The name in snake case, its dashes kept."""
    return re.sub(r"(?<=[a-z0-9])([A-Z])(?=[a-z]|$|[0-9_'-])", lambda m: "_" + m.group(1).lower(), name).replace("′", "'")


def respelled(antt):
    """The new spelling of each name that changes, and the names that keep a dash."""
    declared, foreign = set(), set()
    for path in antt:
        text = read(path)
        for module, names in USE.findall(text):
            own = module.startswith("Rattle.") and not module.startswith("Rattle.std")
            if not own:
                foreign |= {n.strip() for n in names.split(",")}
        if of_function(path):
            continue
        text = COMMENT.sub("", text)
        declared |= {n for names in DECLARED.findall(text) for n in names.split(" ")} | set(DATA.findall(text))
    declared = {n for n in declared if not n.startswith("_") and n != "◌"}
    new, kept = {}, []
    taken = collections.Counter()
    lower = {n: snake(n) for n in declared if not n[0].isdigit() and not n[0].isupper()}
    for n in sorted(lower):
        taken[lower[n].replace("-", "_")] += 1
    for n, s in sorted(lower.items()):
        if n in foreign:
            continue
        flat = s.replace("-", "_")
        if flat != s and (taken[flat] > 1 or flat in foreign or flat in declared and flat != n):
            kept.append(s)
            flat = s
        if flat != n:
            new[n] = flat
    # port.py wrote the dash of some names as `_`: they get it back where a definition has that spelling now
    met = set(new.values())
    new.update({n: n.replace("_", "-") for n in lower if n in met and n not in new})
    return new, kept, declared, foreign


def turned(text, new, skip=frozenset()):
    """Antt's text with the new names."""

    def one(m):
        t = m.group(0)
        if t.startswith('"'):
            return t
        if t.startswith("--"):
            return re.sub(r"`([^`]+)`", lambda c: "`" + turned(c.group(1), new, skip) + "`", t)
        if t.startswith(("tie.", "goal.")):
            return t
        return t if t in skip else new.get(t, t)

    return TOKEN.sub(one, text)


def of_clauses(text, new):
    """A file of src/ with the new names in its `ghost use` items and clauses."""
    out, at = [], 0
    for m in re.finditer(r"^[ \t]*ghost use [^;]*;|^[ \t]*(?:requires|ensures)\*?(?: \w+)? \{", text, re.M):
        if m.start() < at:
            continue
        end = m.end()
        if m.group(0).endswith("{"):
            depth = 1
            while depth:
                depth += {"{": 1, "}": -1}.get(text[end], 0)
                end += 1
        out.append(of_comments(text[at : m.start()], new))
        out.append(turned(text[m.start() : end], new))
        at = end
    return "".join(out) + of_comments(text[at:], new)


def of_comments(text, new):
    """Code with the new names where a comment has them in backquotes."""
    return re.sub(r"//[^\n]*", lambda m: of_quoted(m.group(0), new), text)


def of_quoted(text, new):
    """Prose with the new names in its backquotes."""
    return re.sub(r"`([^`\n]+)`", lambda c: "`" + turned(c.group(1), new) + "`", text)


def write(path, old, text):
    if text != old:
        with open(path, "w", encoding="utf-8") as f:
            f.write(text)


def main():
    antt = files("crates/*/specs/**/*.antt") + files("crates/*/proofs/**/*.antt")
    new, kept, declared, foreign = respelled(antt)
    if sys.argv[1:] == ["--list"]:
        for n, s in sorted(new.items()):
            print(n, s)
        for n in kept:
            print("kept", n)
        for n in sorted(declared & foreign):
            print("foreign", n)
        return
    for path in antt:
        text = read(path)
        mine = set()
        for module, names in USE.findall(text):
            if not module.startswith("Rattle.") or module.startswith("Rattle.std"):
                mine |= {n.strip() for n in names.split(",")}
        write(path, text, turned(text, new, mine))
    for path in files("crates/*/src/**/*.rt"):
        text = read(path)
        write(path, text, of_clauses(text, new))
    for path in files("crates/*/must-fail/*.edit"):
        text = read(path)
        if re.search(r"^file: (?:specs|proofs)/", text, re.M):
            lines = [turned(it, new) if it.startswith(("old: ", "new: ")) else it for it in text.split("\n")]
            write(path, text, "\n".join(lines))
        elif re.search(r"^(?:old|new): +(?:ghost use|requires|ensures)", text, re.M):
            lines = [turned(it, new) if re.match(r"(?:old|new): +(?:ghost use|requires|ensures)", it) else it for it in text.split("\n")]
            write(path, text, "\n".join(lines))
    for path in files("docs/**/*.md") + ["README.md", "CONTRIBUTING.md", "oracle/README.md"]:
        if "/landings/" not in path:
            text = read(path)
            write(path, text, of_quoted(text, new))


main()
