#!/usr/bin/env python3
"""tools/layout.py lays the bundled settlement out as the bundled files, and says what it cannot lay out.

Prints nothing but a last line, and exits with 0, where all is as it must be.
"""
import itertools
import os
import subprocess
import sys
import tempfile

ROOT = os.path.dirname(os.path.dirname(os.path.abspath(__file__)))
DATA = os.path.join(ROOT, "crates", "reading", "data")
NAMES = "settlement.rec", "settlement.txt"

# What a file holds, how layout.py ends, and what it must say.
CASES = {
    "missing.xml": (None, 1, "No such file"),
    "empty.xml": (b"", 1, "no element found"),
    "text.xml": (b"Invoice 4711", 1, "is not XML"),
    "torn.xml": (b"<a><ApplicableHeaderTradeSettlement></a>", 1, "mismatched tag"),
    "encoding.xml": (b'<?xml version="1.0" encoding="shift_jis"?><a/>', 1, "is not XML"),
    "unknown.xml": (b'<?xml version="1.0" encoding="x-none"?><a/>', 1, "is not XML"),
    "bytes.xml": (b"<a>\xff</a>", 1, "is not XML"),
    "other.xml": (b"<Invoice><PaymentMeans/></Invoice>", 1, "no ApplicableHeaderTradeSettlement"),
    "doctype.xml": (b'<!DOCTYPE a [<!ENTITY e "1">]><ApplicableHeaderTradeSettlement>&e;</ApplicableHeaderTradeSettlement>', 1, "DOCTYPE"),
    "deep.xml": (b"<ApplicableHeaderTradeSettlement>" + b"<a>" * 5000 + b"</a>" * 5000 + b"</ApplicableHeaderTradeSettlement>", 0, "5001 records"),
    "fit.xml": (b"<x><y:ApplicableHeaderTradeSettlement xmlns:y='z'/></x>", 0, ""),
}

failures = []


def expect(what, holds):
    if not holds:
        failures.append(what)


def run(*words, **more):
    tool = os.path.join(ROOT, "tools", "layout.py")
    done = subprocess.run([sys.executable, tool, *words], capture_output=True, text=True, **more)
    expect(f"{words}: a traceback", "Traceback" not in done.stderr)
    return done.returncode, done.stderr


def contents(name):
    with open(name, "rb") as f:
        return f.read()


with tempfile.TemporaryDirectory() as folder:
    expect("the bundled settlement", run(os.path.join(DATA, "settlement.xml"), folder) == (0, ""))
    for name in NAMES:
        expect(f"{name} is not as layout.py writes it", contents(f"{folder}/{name}") == contents(f"{DATA}/{name}"))
        os.remove(f"{folder}/{name}")
    for name, (content, status, said) in CASES.items():
        source = os.path.join(folder, name)
        if content is not None:
            with open(source, "wb") as f:
                f.write(content)
        code, errors = run(source, folder)
        expect(f"{name}: ends with {code}, says {errors!r}", code == status and said in errors and (not errors or name in errors))
        for written in NAMES:
            expect(f"{name}: {written}", os.path.exists(f"{folder}/{written}") == (status == 0))
            if status == 0:
                os.remove(f"{folder}/{written}")
    source = os.path.join(folder, "fit.xml")
    code, errors = run(source, f"{folder}/none")
    expect(f"no such folder: {errors!r}", code == 1 and "none/settlement.rec: No such file" in errors)
    with tempfile.TemporaryDirectory() as other:
        done = run(source, "", cwd=other)
        expect(f"the current folder: {done}", done == (0, "") and sorted(os.listdir(other)) == sorted(NAMES))
    # where one file cannot be written, that is said with its name, and the other one does not stay
    troubles = (lambda path: os.symlink("/dev/full", path), "No space left"), (os.mkdir, "Is a directory")
    for name, (make, said) in itertools.product(NAMES, troubles):
        with tempfile.TemporaryDirectory() as other:
            make(f"{other}/{name}")
            code, errors = run(source, other)
            expect(f"{said}: {errors!r}", code == 1 and f"{other}/{name}: {said}" in errors)
            expect(f"{said}: a file stays", not any(os.path.isfile(f"{other}/{n}") for n in NAMES))
    for words in (), (source,), (source, folder, "more"):
        code, errors = run(*words)
        expect(f"{len(words)} words: {errors!r}", code == 2 and "INVOICE.xml FOLDER" in errors)

print("\n".join(failures) or "layout.py: as it must be")
sys.exit(bool(failures))
