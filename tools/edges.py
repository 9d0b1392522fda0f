#!/usr/bin/env python3
"""The edge cases of the leaf functions, and their answers.

  edges.py            write crates/edges/stdin (the cases) and crates/edges/stdout (the answers)
  edges.py --check    only say whether the two files are up to date

The answers come from a model of its own, written from document 01, the change requests and the public
standards that they name: UTF-8 (RFC 3629), White_Space (Unicode), white space, xs:decimal and xs:boolean
(XML Schema part 2), the Gregorian calendar (ISO 8601) and ISO 4217. The program `edges` runs the proved
functions on the same cases, and `rt ci` compares what it prints with these answers.

A case is a line `LEAF NUMBER TEXT`. In TEXT printable ASCII stands for itself, `\\HH` for one byte,
and one `\\*` for a hole, in which the case is run with each byte value.
"""
import datetime
import itertools
import os
import re
import sys

# ---- The model ----------------------------------------------------------------------------------

# Unicode's White_Space, which Rust's `char::is_whitespace` has.
WHITE_SPACE = [
    *range(0x9, 0xE), 0x20, 0x85, 0xA0, 0x1680, *range(0x2000, 0x200B), 0x2028, 0x2029, 0x202F, 0x205F, 0x3000,
]

# White space of XML Schema (part 2, 4.3.6), which mode 1 trims.
BLANKS = [0x9, 0xA, 0xD, 0x20]

# The alphabetic codes of ISO 4217, as Debian's iso-codes 4.15.0 has them.
CURRENCIES = """
AED AFN ALL AMD ANG AOA ARS AUD AWG AZN BAM BBD BDT BGN BHD BIF BMD BND BOB BOV BRL BSD BTN BWP
BYN BZD CAD CDF CHE CHF CHW CLF CLP CNY COP COU CRC CUC CUP CVE CZK DJF DKK DOP DZD EGP ERN ETB
EUR FJD FKP GBP GEL GHS GIP GMD GNF GTQ GYD HKD HNL HRK HTG HUF IDR ILS INR IQD IRR ISK JMD JOD
JPY KES KGS KHR KMF KPW KRW KWD KYD KZT LAK LBP LKR LRD LSL LYD MAD MDL MGA MKD MMK MNT MOP MRU
MUR MVR MWK MXN MXV MYR MZN NAD NGN NIO NOK NPR NZD OMR PAB PEN PGK PHP PKR PLN PYG QAR RON RSD
RUB RWF SAR SBD SCR SDG SEK SGD SHP SLE SLL SOS SRD SSP STN SVC SYP SZL THB TJS TMT TND TOP TRY
TTD TWD TZS UAH UGX USD USN UYI UYU UYW UZS VED VES VND VUV WST XAF XAG XAU XBA XBB XBC XBD XCD
XDR XOF XPD XPF XPT XSU XTS XUA XXX YER ZAR ZMW ZWL
""".split()

# The rules of the rules number, from bit 0 on.
RULES = [12, 13, 14, 15, 31, 32, 36, 37, 45, 46, 47, 55]

DECIMAL = re.compile(rb"([+-]?)(?:([0-9]+)(?:\.([0-9]*))?|\.([0-9]+))")


def is_utf8(s):
    try:
        s.decode("utf-8")
        return True
    except UnicodeDecodeError:
        return False


def trim(s, mode):
    """The place of what trimming leaves: 0, 0 for nothing, all of what is not UTF-8."""
    if not is_utf8(s):
        return 0, len(s)
    white = "".join(map(chr, BLANKS if mode else WHITE_SPACE))
    text = s.decode("utf-8")
    kept = text.strip(white)
    start = len(text) - len(text.lstrip(white)) if kept else 0
    start = len(text[:start].encode("utf-8"))
    return start, start + len(kept.encode("utf-8"))


def lexical(s, mode):
    """What is parsed of a number or a date: collapsed as XML Schema does (part 2, 4.3.6), in mode 0 trimmed."""
    if mode:
        return re.sub(rb"[\t\n\r ]+", b" ", s).strip(b" ")
    start, end = trim(s, mode)
    return s[start:end]


def decimal(s):
    """Sign, digits before the point and digits after it, or None."""
    found = DECIMAL.fullmatch(s)
    if not found:
        return None
    sign, whole, fraction, only = found.groups()
    return (-1 if sign == b"-" else 1), whole or b"", fraction or only or b""


def amount(s, mode):
    s = lexical(s, mode)
    if not s:
        return (0,)
    parts = decimal(s)
    if parts is None:
        return (3,)
    sign, whole, fraction = parts
    if len(fraction) > 2:
        return (4,)
    hundredths = sign * int(whole + fraction.ljust(2, b"0"))
    if not -(2**63) <= hundredths < 2**63:
        return (5,)
    return 0, hundredths


def percentage(s, mode):
    parts = decimal(lexical(s, mode))
    if parts is None:
        return (6,)
    sign, whole, fraction = parts
    if len(whole + fraction) > 18:
        return (7,)
    return 0, sign * int(whole + fraction), len(fraction)


def date(s, mode):
    s = lexical(s, mode)
    if not re.fullmatch(rb"[0-9]{8}", s):
        return (12,)
    year, month, day = int(s[:4]), int(s[4:6]), int(s[6:])
    try:
        # The calendar repeats every 400 years; Python's has no year 0.
        datetime.date(year or 2000, month, day)
    except ValueError:
        return (13,)
    return 0, int(s)


def part(s, number):
    start, length = divmod(number, 1000)
    found = s[start : start + length] if start + length <= len(s) else b""
    return len(found), found[0] if found else -1


def rule(s, number):
    """Whether a rule is in force; no answer where there is no such rule."""
    known = [str(r).encode() for r in RULES]
    return (number >> known.index(s) & 1,) if s in known else ()


def compare(a, b):
    return (a > b) - (a < b)


LEAVES = {
    "utf8": lambda s, n: (int(is_utf8(s)),),
    "trim": trim,
    "digit": lambda s, n: (int(s[:1].isdigit()),),
    "same": lambda s, n: (int(s[:n] == s[n:]),),
    "compare": lambda s, n: (compare(s[:n], s[n:]),),
    "part": part,
    "amount": amount,
    "percentage": percentage,
    "date": date,
    "currency": lambda s, n: (int(s in [c.encode() for c in CURRENCIES]),),
    "vat": lambda s, n: (int(s.lower() == b"vat"),),
    "conformant": lambda s, n: (int(b"#conformant#" in s or b":conformant:" in s),),
    "format": lambda s, n: (int(s == b"102"),),
    "point": lambda s, n: {b"5": (0, 3), b"29": (0, 35), b"72": (0, 432)}.get(s, (15,)),
    "boolean": lambda s, n: {b"true": (0, 1), b"1": (0, 1), b"false": (0, 0), b"0": (0, 0)}.get(s, (18,)),
    "rule": rule,
}

SYMBOLS = re.compile(r"\\[0-9a-fA-F]{2}|\\\*|[ -\[\]-~]")


def answer(line):
    """What the program prints for a line."""
    fit = re.fullmatch(r"([a-z0-9]*) ([0-9]{1,10}) ((?:\\[0-9a-fA-F]{2}|\\\*|[ -\[\]-~])*)", line)
    if not fit or fit[1] not in LEAVES or int(fit[2]) >= 2**32 or fit[3].count("\\*") > 1:
        return "unfit: " + line
    leaf, number, symbols = LEAVES[fit[1]], int(fit[2]), SYMBOLS.findall(fit[3])

    def run(hole):
        text = bytes(hole if x == "\\*" else int(x[1:], 16) if x[0] == "\\" else ord(x) for x in symbols)
        return leaf(text, number)

    if "\\*" not in symbols:
        return f"{line} = " + (" ".join(map(str, run(0))) or "?")
    runs = []
    for same, values in itertools.groupby(range(256), run):
        values = list(values)
        span = f"{values[0]:02x}" + (f"-{values[-1]:02x}" if len(values) > 1 else "")
        runs.append(f" {span}:" + (",".join(map(str, same)) or "?"))
    return f"{line} =" + "".join(runs)


# ---- The cases ----------------------------------------------------------------------------------

cases = []


def add(leaf, number, *texts):
    """Cases of texts in which `\\HH` and `\\*` are written out already."""
    cases.extend(f"{leaf} {number} {text}" for text in texts)


def both(leaf, *texts):
    """Cases in both modes."""
    for mode in 0, 1:
        add(leaf, mode, *texts)


def written(s):
    """A text as a case writes it. White space at its ends is written out too, to be seen."""
    shown = "".join(chr(b) if 0x20 <= b < 0x7F and b != 0x5C else f"\\{b:02x}" for b in s)
    inner = shown.strip(" ")
    if not inner:
        return "\\20" * len(shown)
    return "\\20" * (len(shown) - len(shown.lstrip(" "))) + inner + "\\20" * (len(shown) - len(shown.rstrip(" ")))


def char(code):
    return written(chr(code).encode("utf-8"))


def symbols(text):
    return SYMBOLS.findall(text)


def holes(text):
    """The text with a hole in place of each of its bytes."""
    xs = symbols(text)
    return ["".join(xs[:i] + ["\\*"] + xs[i + 1 :]) for i in range(len(xs))]


def gaps(text):
    """The text with a hole before each of its bytes and at its end."""
    xs = symbols(text)
    return ["".join(xs[:i] + ["\\*"] + xs[i:]) for i in range(len(xs) + 1)]


def edges_of_document_01():
    # Amounts: the least and the greatest, over decimals before out of range, a point or a sign
    # alone, no digit before the point, and a no-break space, which only mode 0 trims.
    both("amount", "-92233720368547758.08", "92233720368547758.08", "92233720368547758.07", "1.000")
    both("amount", "99999999999999999999.123", ".", "+", ".5", "\\c2\\a01")
    # Dates: a leap day, none in 1900, one in the year 0, and seven digits.
    both("date", "20240229", "19000229", "00000229", "2024022")
    # VAT point codes: CII's 5 is 3, and 3 is none of CII's.
    add("point", 0, "5", "3")
    # The two tax totals.
    both("amount", "10.00", "12.00")


def empty_texts():
    for leaf in LEAVES:
        for number in (0, 1, 1001, 4294967295):
            add(leaf, number, "")


def amounts():
    # Lengths: one to 25 digits, nines and a one with zeros, with none to three decimals.
    for n in range(1, 26):
        for digits in ("9" * n, "1" + "0" * (n - 1)):
            add("amount", 0, digits, digits + ".", digits + ".0", digits + ".99", digits + ".000")
            add("amount", 0, "-" + digits, "-" + digits + ".99")
    # The limits with two decimals, one and none, in both signs, and with leading zeros.
    near = ["57.98", "57.99", "58.00", "58.06", "58.07", "58.08", "58.09", "58.10", "59.00", "68.07", "158.07"]
    near += ["57.9", "58.0", "58.1", "58.", "57", "58", "59", "68"]
    for end in near:
        for sign in ("", "+", "-"):
            add("amount", 0, sign + "922337203685477" + end)
    for zeros in (1, 2, 3, 5, 20, 60):
        for sign in ("", "-"):
            for end in ("58.07", "58.08", "58.09"):
                add("amount", 0, sign + "0" * zeros + "922337203685477" + end)
    # Where 64 bits begin again, once and ten times over, and 128 bits.
    for n in (2**64, 2**65, 10 * 2**64, 100 * 2**64, 2**128, 2**63 + 2**64):
        for k in (n - 1, n, n + 1, n + 150):
            add("amount", 0, f"{k // 100}.{k % 100:02}", f"-{k // 100}.{k % 100:02}", f"{k}")
    # Decimals: a text of many is over decimals whatever its digits, if it is a decimal at all.
    for n in range(0, 6):
        both("amount", "0." + "0" * n, "-." + "0" * n, "1." + "2" * n)
    both("amount", "0." + "0" * 40, "." + "9" * 40, "9" * 40 + ".9", "9" * 40 + ".999", "1." + "0" * 40 + "x")
    # Zero, with a sign.
    both("amount", "0", "-0", "+0", "-0.00", "-.0", "00", "-00.0", "-0.01", "0.01", "+0.1")
    # White space around and inside.
    both("amount", "\\201", "1\\20", "\\201\\20", "\\0a1.5\\0d\\0a", "\\091\\09", "1 2", "- 1", "1 .5", "1. 5")
    both("amount", "\\20", "\\09\\20\\09", "\\0a", "\\c2\\a0", "\\e2\\80\\83-1.25\\e3\\80\\80", "\\e2\\80\\8b1")
    # Bytes that are not UTF-8 keep a text from being trimmed.
    both("amount", "\\ff", "\\20\\ff", "1\\ff", "\\201\\20\\ff", "\\201\\c2", "\\a01", "\\c21")
    # Other signs, points and digits: separators, exponents, U+2212, U+FF11, U+0661.
    both("amount", "1,5", "1.000,00", "1e2", "0x10", "1_000", "INF", "NaN", "\\e2\\88\\921", "\\ef\\bc\\91", "\\d9\\a1")
    # Each byte in each place.
    for text in ("", "1", "-1", "12", "1.5", "+.5", "-0.10", "1.25", "\\201\\20"):
        both("amount", *holes(text), *gaps(text))
    both("amount", "\\c2\\*1", "\\e1\\9a\\*1", "\\e2\\80\\*1", "1\\e2\\80\\*", "\\e2\\81\\*1", "\\e3\\80\\*1", "\\*\\a01")
    add("amount", 0, "92233720368547758.0\\*", "-92233720368547758.0\\*", "9223372036854775\\*.07", "-9223372036854775\\*.08")
    add("amount", 0, *holes("92233720368547758.07")[:6])


def signs_and_points():
    # All texts of up to four of these, for both kinds of decimals.
    for n in range(1, 5):
        for text in map("".join, itertools.product("+-.5", repeat=n)):
            add("amount", 0, text)
            if n < 4 or text.count("5") == 2:
                add("percentage", 0, text)


def percentages():
    # 17 to 20 digits, with no point and with the point in each place.
    for n in range(17, 21):
        digits = "98765432109876543210"[:n]
        add("percentage", 0, digits, "-" + digits)
        for k in range(n + 1):
            add("percentage", 0, digits[:k] + "." + digits[k:])
    # Zeros count, in front, behind and alone.
    for n in (16, 17, 18, 19, 20, 30):
        both("percentage", "0" * n, "1" + "0" * n, "0" * n + "1", "0." + "0" * n, "." + "0" * n, "19." + "0" * n)
        add("percentage", 0, "-" + "0" * n + ".", "-" + "0" * n, "+" + "9" * n, "-" + "9" * n, "-." + "9" * n)
    # What is no decimal is that first, however long.
    both("percentage", "1" * 19 + "x", "x" + "1" * 19, "1" * 19 + ".1.1", "-" + "." + "1" * 19 + " 1", "1" * 30 + "%")
    # Common rates, with other scales.
    both("percentage", "19", "19.0", "19.00", "7", "07", "-3.5", "+3.5", "100", "0", "-0", "-0.00", ".5", "5.", "-.5", "33.333333")
    both("percentage", "19%", "19,0", "1e1", "--1", "+-1", "1-", "\\2019\\20", "\\c2\\a019", "\\0919\\09", "\\0a19", "1 9")
    both("percentage", "\\20", "\\09", "\\c2\\a0", "\\ff", "\\2019\\ff", "\\d9\\a1")
    for text in ("", "7", "-7", "19", "7.5", "+.5"):
        both("percentage", *holes(text), *gaps(text))
    add("percentage", 0, "9999999999999999\\*", "99999999999999999\\*", "999999999999999999\\*", "99999999999999999\\*9", "0.0000000000000000\\*")


def dates():
    # Each month's last day and the day after it, in common and in leap years.
    lengths = [31, 28, 31, 30, 31, 30, 31, 31, 30, 31, 30, 31]
    for year in ("1900", "2000", "2023", "2024", "0000", "0004", "9999"):
        for month, length in enumerate(lengths, 1):
            for day in (length, length + 1, *([30] if month == 2 else [])):
                add("date", 0, f"{year}{month:02}{day:02}")
        add("date", 0, year + "0001", year + "0000", year + "1301", year + "0100", year + "0132", year + "9999", year + "0229")
    # Leap years: by four, not by a hundred, by four hundred.
    for year in ("0001", "0100", "0200", "0400", "1582", "1600", "1700", "1996", "1999", "2001", "2100", "2400", "9996"):
        add("date", 0, year + "0228", year + "0229", year + "0301")
    # None of the days that one calendar left out.
    add("date", 0, "15821004", "15821005", "15821014", "15821015")
    # Every day of each month, by its last digit.
    for month in range(14):
        for tens in ("0", "2", "3"):
            add("date", 0, f"2023{month:02}{tens}\\*")
    # Other lengths, separators and signs.
    both("date", "2024022", "202402290", "20240229 ", "2024-02-29", "240229", "+2024022", "-20240229", "2024022.", "2024 0229")
    both("date", "20240229000000", "0", "00000000", "00000101", "99991231", "\\d9\\a120240", "\\ef\\bc\\9202402")
    # White space around.
    both("date", "\\2020240229", "20240229\\09", "\\0a20240229\\0a", "\\c2\\a020240229", "20240229\\e3\\80\\80", "\\e2\\80\\8b20240229")
    both("date", "\\2020240229\\ff", "\\ff", "\\20", "\\c2\\a0", "\\20\\20\\20\\20\\20\\20\\20\\20")
    # Each byte in each place.
    for text in ("20240229", "00000101", "20231130"):
        both("date", *holes(text))
    both("date", *gaps("20240229"), "\\*", "\\c2\\*20240229", "20240229\\e2\\80\\*")


# The forms of UTF-8 at their boundaries, and what lies just outside.
SEQUENCES = """
00 7f 80 bf c0.80 c1.bf c2.80 c2.7f c2.c0 df.bf e0.80.80 e0.9f.bf e0.a0.80 e1.80.80 ec.bf.bf ed.9f.bf ed.a0.80 ed.bf.bf
ee.80.80 ef.bf.bd ef.bf.bf f0.80.80.80 f0.8f.bf.bf f0.90.80.80 f3.bf.bf.bf f4.8f.bf.bf f4.90.80.80 f5.80.80.80 f7.bf.bf.bf
f8.88.80.80.80 fb.bf.bf.bf.bf fc.84.80.80.80.80 fe ff
""".split()


def utf8():
    for sequence in SEQUENCES:
        xs = ["\\" + x for x in sequence.split(".")]
        text = "".join(xs)
        add("utf8", 0, text, "a" + text, text + "a", text + text)
        # Cut short, alone and before a letter; and without its first byte.
        for k in range(1, len(xs)):
            add("utf8", 0, "".join(xs[:k]), "".join(xs[:k]) + "a", "".join(xs[k:]))
        add("utf8", 0, *holes(text))
        if len(xs) > 1:
            add("utf8", 0, *gaps(text))
    # Two bytes, all of them; and each first byte of three and of four with each byte after it.
    for first in range(256):
        add("utf8", 0, f"\\{first:02x}\\*")
    for first in range(0xE0, 0xF0):
        add("utf8", 0, f"\\{first:02x}\\*\\80", f"\\{first:02x}\\*\\bf", f"\\{first:02x}\\a0\\*")
    for first in range(0xF0, 0xF8):
        add("utf8", 0, *(f"\\{first:02x}" + x for x in ("\\*\\80\\80", "\\*\\bf\\bf", "\\80\\*\\80", "\\90\\*\\80", "\\90\\80\\*")))
    # Texts: German, Greek, Chinese, an emoji, a byte order mark, surrogates in pairs, Latin-1.
    add("utf8", 0, *(written(x.encode("utf-8")) for x in ("Grüße", "Ελλάδα", "发票", "🧾", "\ufeffa", "a\u0000b")))
    add("utf8", 0, "\\ed\\a0\\bd\\ed\\b7\\be", "Gr\\fc\\dfe", "\\5c", "a b", "a" * 60 + "\\80", "\\c3\\bc" * 20 + "\\c3")


def trimming():
    # White_Space, the neighbours of each, and what looks like white space and is none.
    odd = [0x0, 0x1C, 0x1D, 0x1E, 0x1F, 0x7F, 0xAD, 0x180E, 0x200B, 0x2060, 0xFEFF, 0xFFFD, 0x1F600]
    codes = sorted({c + d for c in WHITE_SPACE for d in (-1, 0, 1)} | set(odd))
    for c in map(char, codes):
        both("trim", c, c + "a", "a" + c, "a" + c + "b", c + c)
    for c in map(char, WHITE_SPACE):
        both("trim", c + c + "a" + c, c + "\\ff" + c)
        add("trim", 0, c + "\\20a\\09" + c, "\\09" + c + "\\c3\\bc\\20" + c)
    both("trim", "a", "ab", "a b", "\\20a b\\20", "\\20", "\\09", "\\20\\09\\20", "\\20\\c2\\a0a\\c2\\a0\\20", "\\c2\\a0\\20a\\20\\c2\\a0")
    # Not UTF-8: at the front, at the end, in the middle, and a white space cut short.
    both("trim", "\\ff", "\\20\\ff", "\\ff\\20", "\\20a\\ffb\\20", "\\c2", "\\20\\c2", "\\20\\e2\\80", "\\e2\\80a\\20", "\\20\\ed\\a0\\80", "\\20\\a0")
    both("trim", "\\c2\\a0\\ff", "\\20\\80\\20", "\\20\\c0\\a0\\20", "\\e0\\82\\a0a", "\\f0\\80\\82\\a0a")
    # Each byte in each place.
    for text in ("\\20", "a", "\\20a", "a\\20", "\\20a\\20"):
        both("trim", *holes(text), *gaps(text))
    for c in map(char, (0x85, 0xA0, 0x1680, 0x2000, 0x2028, 0x202F, 0x205F, 0x3000)):
        both("trim", *(h + "a" for h in holes(c)), *("a" + h for h in holes(c)))


def blanks():
    # Change request R-1: XML Schema's four characters at each end and at both, alone, twice, and inside.
    others = [char(c) for c in (0xA0, 0xB, 0x85)]
    for leaf, text in ("amount", "1.50"), ("percentage", "19"), ("date", "20240229"), ("trim", "ab"):
        front, back = text[: len(text) // 2], text[len(text) // 2 :]
        for c in map(char, BLANKS):
            both(leaf, c, c + text, text + c, c + text + c, c + c, c + c + text, text + c + c, front + c + back)
            # Beside what only mode 0 trims.
            for x in others:
                both(leaf, c + x, x + c, c + x + text, x + c + text, text + c + x, text + x + c)
        # All of them, in either order; inside; in other modes, which are as mode 1; and in what is not UTF-8.
        every = "".join(map(char, BLANKS))
        back_to_front = "".join(map(char, reversed(BLANKS)))
        for mode in (0, 1, 2, 4294967295):
            add(leaf, mode, every, every + text + back_to_front, back_to_front + text + every, front + every + back)
            add(leaf, mode, *(x + text for x in others), every + "\\ff", every + text + "\\ff" + every)


def orders():
    for n, text in (0, "a"), (1, "a"), (1, "aa"), (1, "ab"), (1, "ba"), (1, "aab"), (2, "aba"), (2, "abab"), (2, "abac"), (2, "acab"):
        add("same", n, text)
        add("compare", n, text)
    for n in (0, 1, 2, 3, 4, 5, 4294967295):
        for text in ("abcd", "\\00\\00", "\\ff\\00\\00\\ff"):
            add("same", n, text)
            add("compare", n, text)
    for n, text in (1, "aa"), (2, "abab"), (1, "\\80\\80"), (2, "aba"), (1, "a"), (3, "abcabcd"):
        for leaf in ("same", "compare"):
            add(leaf, n, *holes(text), *gaps(text))


def parts():
    for start in range(8):
        for length in range(8):
            add("part", start * 1000 + length, "abcde")
    add("part", 999, "a", "b" * 60)
    add("part", 60, "c" * 60, "c" * 59)
    for n in (1, 1001, 4294967000, 4294967295):
        add("part", n, "\\*", "a\\*", "ab")


def digits():
    add("digit", 0, "\\*", "\\*1", "1\\*", "0", "9", "/", ":", "a1", "1a", "\\d9\\a1", "\\b2")


def currencies():
    add("currency", 0, *CURRENCIES)
    # Every code of two letters and any third byte.
    for a, b in itertools.product("ABCDEFGHIJKLMNOPQRSTUVWXYZ", repeat=2):
        add("currency", 0, a + b + "\\*")
    for text in ("EUR", "AED", "ZWL", "XXX"):
        add("currency", 0, *holes(text)[:2], *gaps(text))
    add("currency", 0, "eur", "Eur", "EUr", "EU", "E", "EURO", "EUREUR", "EUR\\00", "\\20EUR", "EUR\\20", "\\c3\\89UR", "978", "EUR USD")
    # Codes on which editions of the list differ.
    add("currency", 0, "ZWG", "XCG", "HRK", "CUC", "SLL", "SLE", "ZWN", "DEM", "BYR", "MRO", "STD", "VEF", "LTL", "XBT")


def points():
    add("point", 0, "5", "29", "72", "3", "35", "432", "05", "029", "29.", "+5", "\\205", "5\\20", "\\0a5", "295", "2972", "five")
    for text in ("", "5", "29", "72"):
        add("point", 0, *holes(text), *gaps(text))


def booleans():
    for text in ("true", "1", "false", "0"):
        add("boolean", 0, text, text.upper(), text.title(), text + text, text[:-1], "\\20" + text, text + "\\20", *holes(text), *gaps(text))
    add("boolean", 0, "yes", "no", "tRUE", "01", "00", "2", "-1", "+1", "truefalse", "on", "\\e2\\80\\83true")


def vat():
    for letters in itertools.product("Vv", "Aa", "Tt"):
        add("vat", 0, "".join(letters), *holes("".join(letters)))
    add("vat", 0, *gaps("VAT"), "VA", "V", "VATT", "VATVAT", "\\20VAT", "VAT\\20", "TAV", "GST", "\\d6\\c1\\d4", "V\\c3\\84T", "v\\41\\74")


def conformants():
    for mark in ("#conformant#", ":conformant:"):
        urn = "urn:cen.eu:en16931:2017"
        add("conformant", 0, mark, mark + urn, urn + mark, urn + mark + "urn:factur-x.eu:1p0:extended", mark + mark, mark[:-1] + mark)
        add("conformant", 0, mark[0] + mark, mark + mark[0], mark[:6] + mark, mark + mark[:6], mark.upper(), mark.title(), mark[:-1] + "\\00")
        # Cut short at either end.
        for k in range(1, len(mark)):
            add("conformant", 0, mark[:k], mark[k:])
        add("conformant", 0, *holes(mark), *gaps(mark), *holes("ab" + mark)[:2])
    add("conformant", 0, "#conformant:", ":conformant#", "#conformant:conformant:", ":conformant#conformant#", "#conformant:conformant#", "conformant")
    add("conformant", 0, "urn:cen.eu:en16931:2017#compliant#urn:xeinkauf.de:kosit:xrechnung_3.0", "urn:cen.eu:en16931:2017", "# conformant#", "\\ff#conformant#\\ff")


def formats():
    add("format", 0, "102", "203", "101", "103", "0102", "1020", "10", "02", "1", "\\20102", "102\\20", "102\\0a", "102102", "1O2", "\\ef\\bc\\9102")
    add("format", 0, *holes("102"), *gaps("102"))


def rules():
    ones = [1 << k for k in range(12)]
    for number in (0, *ones, *(4095 - one for one in ones), 4095, 4096, 8191, 2147483648, 4294963200, 4294967295):
        add("rule", number, *map(str, RULES))
    for number in (0, 4095):
        add("rule", number, "1", "11", "16", "30", "33", "44", "48", "54", "56", "012", "\\2012", "12\\20", "1212", "BR-12", "0", "99", "4095")
        add("rule", number, "\\*", "1\\*", "\\*2", "3\\*", "4\\*", "5\\*", "12\\*", "\\*12")


def lines():
    # Lines of another form, which are unfit, and lines that only look so.
    cases.extend(["", " ", "  ", "amount", "amount 0", "amount  0 1", " amount 0 1", "amount 0\t1", "amount\t0 1", "0 1", "amount 1.5"])
    cases.extend(["Amount 0 1", "amounts 0 1", "amoun 0 1", " 0 1", "utf-8 0 a", "utf 0 a", "utf88 0 a", "rules 0 12", "unknown 0 1"])
    cases.extend(["amount x 1", "amount -1 1", "amount +0 1", "amount 0x0 1", "amount 4294967296 1", "amount 9999999999 1", "amount 10000000000 1"])
    cases.extend(["amount 0 \\", "amount 0 1\\", "amount 0 \\3", "amount 0 1\\3", "amount 0 \\3g", "amount 0 \\g3", "amount 0 \\ 3", "amount 0 \\\\"])
    cases.extend(["amount 0 \\*\\*", "amount 0 1\\*5\\*", "amount 0 \\*\\", "amount 0 1\t", "amount 0 1\x7f", "amount 0 1\x01", "amount 0 \\3*", "amount 0 \\**\\*"])
    cases.extend(["amount 0 \\31\\2E\\35", "amount 0 \\C2\\A01", "amount 0  1", "amount 0 1 ", "amount 00 1", "amount 0000000001 \\c2\\a01", "amount 0 *", "amount 0 \\**"])
    cases.extend(["trim 0  a b ", "trim 4294967295 \\c2\\a0a", "utf8 4294967295 a", "digit 7 7", "utf8 0 \\5c\\5C\\2a", "same 1 \\5c\\5c"])


def main(words):
    for section in (
        edges_of_document_01, empty_texts, amounts, signs_and_points, percentages, dates, utf8, trimming, blanks, orders,
        parts, digits, currencies, points, booleans, vat, conformants, formats, rules, lines,
    ):
        section()
    chosen = list(dict.fromkeys(cases))
    stdin = "".join(line + "\n" for line in chosen).encode("ascii")
    stdout = "".join(answer(line) + "\n" for line in chosen).encode("ascii")
    folder = os.path.join(os.path.dirname(os.path.abspath(__file__)), "..", "crates", "edges")
    files = [(os.path.join(folder, "stdin"), stdin), (os.path.join(folder, "stdout"), stdout)]
    if words == ["--check"]:
        stale = [name for name, content in files if not os.path.exists(name) or open(name, "rb").read() != content]
        print("crates/edges: " + ("out of date: " + ", ".join(map(os.path.basename, stale)) if stale else "up to date"))
        return 1 if stale else 0
    if words:
        print(__doc__)
        return 2
    for name, content in files:
        with open(name, "wb") as f:
            f.write(content)
    many = sum(256 if "\\*" in line and not answer(line).startswith("unfit") else 1 for line in chosen)
    print(f"{len(chosen)} cases, {many} answers, {len(stdin)} and {len(stdout)} bytes")
    return 0


if __name__ == "__main__":
    sys.exit(main(sys.argv[1:]))
