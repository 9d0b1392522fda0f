#!/usr/bin/env python3
"""The program `reading` on files made on the spot: both sides of each limit, and pipes that are read slowly.

  reading.py PROGRAM

What must come out is document 01's ("The printed reading"), of which the first line is compared, and of a pipe
a beginning of the reading's bytes. A run that does not end is killed, and the test fails.
"""
import fcntl
import os
import signal
import struct
import subprocess
import sys
import tempfile
import threading
import time

PATIENCE = 60  # seconds for a run
LONGEST = 4194304  # bytes of an input line that are read; document 01 has no limit
PIPE_SIZE = 1031  # fcntl's F_SETPIPE_SZ, which Python names since 3.10

SETTLEMENT = (0, b"ApplicableHeaderTradeSettlement", b"")
LINE = b"0 0 EUR -\n"


def lay_out(elements):
    """Record file and text of elements, each its parent's number, its name and its text."""
    records, text = b"", b""
    for parent, name, content in elements:
        start = len(text)
        text += name + content
        records += struct.pack("<6I", 1, parent, start, len(name), start + len(name), len(content))
    return records, text


def filled(size):
    """A settlement whose text has so many bytes, all of them in records."""
    reference = b"PaymentReference"
    return lay_out([SETTLEMENT, (0, reference, b"x" * (size - len(SETTLEMENT[1] + reference)))])


def limits():
    """What each case is, record file, text and input line, and the first line that must come out."""
    foos, names = lay_out([SETTLEMENT] + 256 * [(0, b"Foo", b"")])
    charge = lay_out([SETTLEMENT, (0, b"SpecifiedLogisticsServiceCharge", b"")])
    one = lay_out([SETTLEMENT])
    yield "256 records", foos[:6144], names, LINE, b"accepted\t0\t0\t1"
    yield "257 records", foos, names, LINE, b"unfit"
    yield "a number over 256 records", foos[:6148], names, LINE, b"unfit"
    yield "a number below 256 records", foos[:6140], names, LINE, b"refused\t3\t0"
    for size in (1, 6141, 6142, 6143, 6145):
        yield f"{size} bytes, not of whole numbers", foos[:size], names, LINE, b"unfit"
    yield "no record", b"", names, LINE, b"refused\t3\t0"
    yield "65,536 bytes of text", *filled(65536), LINE, b"accepted\t0\t0\t0"
    yield "65,537 bytes of text", *filled(65537), LINE, b"unfit"
    yield "both at their limit", foos[:6144], names.ljust(65536), LINE, b"accepted\t0\t0\t1"
    head, mark = b"0 0 EUR ", b"#conformant#"
    for size in (65536, 65537, LONGEST):
        whole = head.ljust(size - len(mark), b"x") + mark
        yield f"a line of {size} bytes", *charge, whole, b"accepted\t1\t0\t0"
        yield f"a line of {size} bytes, one of them its feed", *charge, whole[:-1] + b"\n", b"accepted\t0\t1\t0"
    yield "a line beyond the limit", *one, head.ljust(LONGEST + 1, b"x"), b"unfit"
    yield "a line beyond the limit by its feed", *one, head.ljust(LONGEST, b"x") + b"\n", b"unfit"
    yield "nine digits", *one, b"000000001 000004095 EUR -", b"accepted\t0\t4\t0"
    yield "ten digits", *one, b"0 0000000000 EUR -", b"unfit"
    yield "the highest rules number of nine digits", *one, b"0 999999999 EUR -", b"refused\t2\t0"
    yield "three fields", *one, b"0 0 EUR", b"unfit"
    yield "five fields", *one, b"0 0 EUR - -", b"unfit"
    yield "no line", *one, b"", b"unfit"


def lay_down(folder, records, text):
    for name, content in (("settlement.rec", records), ("settlement.txt", text)):
        with open(os.path.join(folder, name), "wb") as f:
            f.write(content)


def late(line, output):
    sys.exit(f"input {line[:40]!r}, {output}: the program did not end in {PATIENCE} seconds")


def printed(program, folder, line):
    try:
        return subprocess.run([program], input=line, stdout=subprocess.PIPE, cwd=folder, check=True, timeout=PATIENCE).stdout
    except subprocess.TimeoutExpired:
        late(line, "a pipe that is read at once")


def accounts():
    """120 accounts, long and short by turns, one of them longer than a page."""
    elements = [SETTLEMENT, (0, b"SpecifiedTradeSettlementPaymentMeans", b"")]
    for n in range(120):
        size = 9000 if n == 10 else 700 if n % 2 == 0 else 5
        elements.append((1, b"PayeePartyCreditorFinancialAccount", b""))
        elements.append((len(elements) - 1, b"IBANID", b"DE%03d" % n + b"x" * (size - 5)))
    return lay_out(elements)


def slowly(pipe):
    """All that a pipe gives, read a few bytes at a time."""
    got = b""
    while part := os.read(pipe, 64):
        got += part
        time.sleep(0.0005)
    return got


def arrived(program, folder, size, blocking, wait):
    """What comes through a pipe of this size, read slowly, or only when the program has ended."""
    reader, writer = os.pipe()
    fcntl.fcntl(writer, PIPE_SIZE, size)
    os.set_blocking(writer, blocking)
    with subprocess.Popen([program], stdin=subprocess.PIPE, stdout=writer, cwd=folder) as run:
        os.close(writer)
        clock = threading.Timer(PATIENCE, run.kill)
        clock.start()
        run.stdin.write(LINE)
        run.stdin.close()
        if wait:
            run.wait()
        got = slowly(reader)
    clock.cancel()
    os.close(reader)
    if run.returncode == -signal.SIGKILL:
        late(LINE, f"a pipe of {size} bytes")
    return got


def wrong_limits(program, folder):
    """What of the limits is not as it must be."""
    for name, records, text, line, first in limits():
        lay_down(folder, records, text)
        found = printed(program, folder, line)
        if found.split(b"\n")[0] != first or (first == b"unfit" and found != b"unfit\n"):
            yield f"{name}: {found[:40]!r} instead of {first!r}"
    for name in ("settlement.rec", "settlement.txt"):
        lay_down(folder, *lay_out([SETTLEMENT]))
        os.remove(os.path.join(folder, name))
        if printed(program, folder, LINE) != b"unfit\n":
            yield f"no {name}: not unfit"


def wrong_pipes(program, folder):
    """What of the pipes is not as it must be."""
    lay_down(folder, *accounts())
    whole = printed(program, folder, LINE)
    if whole.count(b"\nheld\t1\tDE") != 120:
        yield f"120 accounts: {whole[:40]!r}"
    if arrived(program, folder, 4096, True, False) != whole:
        yield "a pipe that blocks: not the whole reading arrived"
    if arrived(program, folder, 262144, False, True) != whole:
        yield "a pipe that does not block, with room for all: not the whole reading arrived"
    for wait in (False, True):
        got = arrived(program, folder, 4096, False, wait)
        if not whole.startswith(got):
            yield f"a pipe that does not block: {got.count(10)} of {whole.count(10)} lines arrived, no beginning of them"
        if wait and not 0 < len(got) < len(whole):
            yield f"a pipe that does not block: {len(got)} of {len(whole)} bytes arrived, so that nothing was tried"


def main():
    program = os.path.abspath(sys.argv[1])
    with tempfile.TemporaryDirectory() as folder:
        wrong = [*wrong_limits(program, folder), *wrong_pipes(program, folder)]
    if wrong:
        sys.exit("\n".join(wrong))


main()
