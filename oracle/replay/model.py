#!/usr/bin/env python3
"""A reader of tables, written from document 01, the change requests and docs/DECISIONS.md: answers that the
Rust cannot give.

    python3 oracle/replay/model.py FOLDER    runs it on FOLDER/stdin and compares with FOLDER/stdout

Mode 1, message 7 and the refusals have no Rust to compare with, so their answers come from here; on
all other cases this model must print what the Rust printed. It shares no code with either reader, but its
author knew the Rust, so that on what the papers leave open it is no second opinion. The currencies are those
of tools/edges.py.
"""
import os
import re
import sys
from typing import NamedTuple

sys.path.append(os.path.join(os.path.dirname(os.path.abspath(__file__)), "..", "..", "tools"))
from edges import CURRENCIES

SETTLEMENT = "ApplicableHeaderTradeSettlement"
SUMMATION = "SpecifiedTradeSettlementHeaderMonetarySummation"
MEANS = "SpecifiedTradeSettlementPaymentMeans"
# where unmapped elements are noted, by the parent's number
PARENTS = {1: SETTLEMENT, 2: SUMMATION, 3: MEANS}
RULES = ["BR-%d" % n for n in (12, 13, 14, 15, 31, 32, 36, 37, 45, 46, 47, 55)]
# the term that each rule requires
REQUIRED = dict(zip(("BT-%d" % n for n in (106, 109, 112, 115, 92, 95, 99, 102, 116, 117, 118, 25)), RULES))
SPACES = [*range(9, 14), 32, 0x85, 0xA0, 0x1680, *range(0x2000, 0x200B), 0x2028, 0x2029, 0x202F, 0x205F, 0x3000]
WHITE = "".join(map(chr, SPACES))
# what XML Schema's collapse takes from the ends (change request R-1)
BLANKS = "\t\n\r "


# ---- refusals


def is_utf8(b):
    try:
        b.decode("utf-8")
        return True
    except UnicodeDecodeError:
        return False


def refusal(mode, rules, table, text):
    """Refusal number and record, or None; the room of the lists (10) is taken as enough."""
    records = [table[6 * r:6 * r + 6] for r in range(len(table) // 6)]
    spans = lambda r: ((r[2], r[3]), (r[4], r[5]))
    if mode > 1:
        return 1, 0
    if rules > 4095:
        return 2, 0
    if not records or len(table) % 6:
        return 3, 0
    if len(records) > 4096 or len(text) > 1048576:
        return 4, 0
    if records[0][:2] != [1, 0]:
        return 5, 0
    for i, (kind, parent, *_) in enumerate(records[1:], 1):
        if kind not in (1, 2) or parent >= i or records[parent][0] != 1:
            return 6, i
    for i, r in enumerate(records):
        if any(start + length > len(text) for start, length in spans(r)):
            return 7, i
    for i, r in enumerate(records):
        if not all(is_utf8(text[start:start + length]) for start, length in spans(r)):
            return 8, i
    if text[records[0][2]:records[0][2] + records[0][3]] != SETTLEMENT.encode():
        return 9, 0
    return None


# ---- the tree


class Text(str):
    """A text of the table, which knows where its first byte stands."""

    def __new__(cls, value, start):
        text = super().__new__(cls, value)
        text.start = start
        return text

    def strip(self, characters):
        front = self[:len(self) - len(self.lstrip(characters))]
        return Text(super().strip(characters), self.start + len(front.encode()))


class Element:
    def __init__(self, name, text):
        self.name, self.text, self.attributes, self.kids = name, text, {}, []

    def kid(self, name):
        return next((k for k in self.kids if k.name == name), None)

    def trimmed(self):
        return self.text.strip(WHITE)

    def child_text(self, name):
        """Trimmed text of the first child of a name; blank is absent."""
        kid = self.kid(name)
        return (kid.trimmed() or None) if kid else None


def tree(table, text):
    elements = {}
    for i in range(len(table) // 6):
        kind, parent, ns, nl, ts, tl = table[6 * i:6 * i + 6]
        name, value = (Text(text[start:start + length].decode(), start) for start, length in ((ns, nl), (ts, tl)))
        if kind == 2:
            elements[parent].attributes.setdefault(name, value)
            continue
        elements[i] = Element(name, value)
        if i:
            elements[parent].kids.append(elements[i])
    return elements[0]


# ---- the leaves


class Percentage(NamedTuple):
    unscaled: int
    scale: int

    def __str__(self):
        return "%d/%d" % self


DECIMAL = re.compile(r"[+-]?([0-9]*)(?:\.([0-9]*))?")


def parts(s):
    """Whole and fraction digits of an xs:decimal, or None."""
    m = DECIMAL.fullmatch(s)
    return (m[1], m[2] or "") if m and (m[1] or m[2]) else None


def amount_of(s):
    """(0, hundredths) or (message, None)."""
    p = parts(s)
    if p is None:
        return 3, None
    whole, fraction = p
    if len(fraction) > 2:
        return 4, None
    n = int((whole or "0") + fraction.ljust(2, "0")) * (-1 if s[0] == "-" else 1)
    return (0, n) if -2**63 <= n < 2**63 else (5, None)


def percent_of(s):
    p = parts(s)
    if p is None:
        return 6, None
    digits = p[0] + p[1]
    if len(digits) > 18:
        return 7, None
    return 0, Percentage(int(digits) * (-1 if s[0] == "-" else 1), len(p[1]))


def date_of(s):
    if not re.fullmatch("[0-9]{8}", s):
        return 12, None
    y, m, d = int(s[:4]), int(s[4:6]), int(s[6:])
    leap = y % 4 == 0 and (y % 100 != 0 or y % 400 == 0)
    days = [31, 29 if leap else 28, 31, 30, 31, 30, 31, 31, 30, 31, 30, 31]
    return (0, int(s)) if 1 <= m <= 12 and 1 <= d <= days[m - 1] else (13, None)


# ---- the reading


class Reading:
    def __init__(self, mode, rules, currency, identifier):
        self.mode, self.rules, self.currency, self.identifier = mode, rules, currency, identifier
        self.terms, self.groups, self.held, self.entries, self.unmapped = {}, set(), [], [], {}
        self.count = {kind: 0 for kind in range(1, 6)}

    def say(self, message, path, term=None, value=None):
        self.entries.append((message, path, term, value))

    def hold(self, kind, *fields):
        self.count[kind] += 1
        self.held.append([kind, *fields])

    def unmap(self, parent, e):
        """Each pair of parent and name once, as it is met first."""
        self.unmapped.setdefault((parent, e.name.encode()), e.name)

    def own(self, e):
        """The text of an amount, percentage or date, trimmed as the mode does."""
        return e.text.strip(WHITE if self.mode == 0 else BLANKS)

    def missing(self, path, term):
        rule = REQUIRED[term.split("/")[-1]]
        if self.rules >> RULES.index(rule) & 1:
            self.say(9, path, term)

    # values of a first child

    def amount(self, n, name, term):
        e = n.kid(name)
        raw = self.own(e) if e else ""
        if not raw:
            return None
        path = n.name + "/" + name
        code = e.attributes.get("currencyID", "").strip(WHITE)
        if code and (code not in CURRENCIES or self.currency and code != self.currency):
            self.say(1 if code not in CURRENCIES else 2, path, term, code)
            return None
        message, value = amount_of(raw)
        if message:
            self.say(message, path, term, raw)
        return value

    def required_amount(self, n, path, name, term):
        e = n.kid(name)
        if e is None or not self.own(e):
            self.missing(path, term)
            return 0
        return self.amount(n, name, term) or 0

    def percent(self, n, name, term):
        e = n.kid(name)
        raw = self.own(e) if e else ""
        if not raw:
            return None
        message, value = percent_of(raw)
        if message:
            self.say(message, n.name + "/" + name, term, raw)
        return value

    def date(self, n, name):
        wrapper = n.kid(name)
        e = wrapper and (wrapper.kid("DateTimeString") or wrapper.kid("DateString"))
        if not e:
            return None
        raw, path = self.own(e), "/".join((n.name, name, e.name))
        if (e.name == "DateString") != (name == "TaxPointDate"):
            self.say(10, path, None, raw)
        if e.attributes.get("format", "102") != "102":
            self.say(11, path, None, raw)
            return None
        message, value = date_of(raw)
        if message:
            self.say(message, path, None, raw)
        return value

    def category(self, n, path, term):
        """The category code of a tax, after its type code."""
        kind = n.child_text("TypeCode")
        if kind and kind.upper() != "VAT":
            self.say(8, n.name + "/TypeCode", term, kind)
        code = n.child_text("CategoryCode")
        if code is None:
            self.missing(path, term)
        return code or ""

    def category_and_rate(self, n, name, category, rate):
        path, tax = SETTLEMENT + "/" + n.name, n.kid(name)
        if tax is None:
            self.missing(path, category)
            return "", None
        return self.category(tax, path + "/" + name, category), self.percent(tax, "RateApplicablePercent", rate)

    # children of the settlement

    def tax(self, n):
        if self.terms.get("BT-7") is None:
            self.terms["BT-7"] = self.date(n, "TaxPointDate")
        code = n.child_text("DueDateTypeCode")
        if code and self.first_code is None:
            self.first_code = code
            self.terms["BT-8"] = {"5": 3, "29": 35, "72": 432}.get(code)
            if self.terms["BT-8"] is None:
                self.say(15, "ApplicableTradeTax/DueDateTypeCode", "BT-8", code)
        elif code and code != self.first_code:
            self.say(14, SETTLEMENT + "/ApplicableTradeTax/DueDateTypeCode", "BT-8", code)
        group, path = "BG-23[%d]/" % self.count[2], SETTLEMENT + "/ApplicableTradeTax"
        taxable = self.required_amount(n, path, "BasisAmount", group + "BT-116")
        tax = self.required_amount(n, path, "CalculatedAmount", group + "BT-117")
        category = self.category(n, path, group + "BT-118")
        rate = self.percent(n, "RateApplicablePercent", group + "BT-119")
        self.hold(2, taxable, tax, category, rate, n.child_text("ExemptionReason"), n.child_text("ExemptionReasonCode"))

    def allowance_charge(self, n):
        indicator = n.kid("ChargeIndicator") and n.kid("ChargeIndicator").kid("Indicator")
        raw = indicator.trimmed() if indicator else None
        if raw not in ("true", "1", "false", "0"):
            self.say(19 if raw is None else 18, n.name + "/ChargeIndicator/Indicator", None, raw)
        kind = 4 if raw in ("true", "1") else 3
        group = "BG-%d[%d]/BT-" % (21 if kind == 4 else 20, self.count[kind])
        first = 99 if kind == 4 else 92
        amount, base, percent, category, rate = (group + str(first + i) for i in range(5))
        vat = self.category_and_rate(n, "CategoryTradeTax", category, rate)
        value = self.required_amount(n, SETTLEMENT + "/" + n.name, "ActualAmount", amount)
        base = self.amount(n, "BasisAmount", base)
        percent = self.percent(n, "CalculationPercent", percent)
        self.hold(kind, value, base, percent, *vat, n.child_text("Reason"), n.child_text("ReasonCode"))

    def logistics_charge(self, n):
        if not any(mark in (self.identifier or "") for mark in ("#conformant#", ":conformant:")):
            self.say(20, SETTLEMENT + "/" + n.name)
            return
        group = "BG-21[%d]/BT-" % self.count[4]
        vat = self.category_and_rate(n, "AppliedTradeTax", group + "102", group + "103")
        value = self.required_amount(n, SETTLEMENT + "/" + n.name, "AppliedAmount", group + "99")
        self.hold(4, value, None, None, *vat, n.child_text("Description"), None)

    def payment_terms(self, n):
        e = n.kid("Description")
        self.terms["BT-20"] = (e.text or None) if e else None
        self.terms["BT-9"] = self.date(n, "DueDateDateTime")
        self.mandate = n.child_text("DirectDebitMandateID")

    def preceding(self, n):
        reference = n.child_text("IssuerAssignedID")
        if reference is None:
            self.missing(SETTLEMENT + "/" + n.name, "BG-3[%d]/BT-25" % self.count[5])
        self.hold(5, reference or "", self.date(n, "FormattedIssueDateTime"))

    def payee(self, n):
        def identifier(term, e):
            self.terms[term] = e.trimmed() if e else None
            self.terms[term, "scheme"] = e.attributes.get("schemeID", e.attributes.get("listID")) if e else None
        self.groups.add("BG-10")
        self.terms["BT-59"] = n.child_text("Name")
        identifier("BT-60", n.kid("GlobalID") or n.kid("ID"))
        identifier("BT-61", n.kid("SpecifiedLegalOrganization") and n.kid("SpecifiedLegalOrganization").kid("ID"))

    def payment_means(self, n):
        self.groups.add("BG-16")
        last = None
        account = lambda e: e.child_text("IBANID") or e.child_text("ProprietaryID")
        for c in n.kids:
            path = MEANS + "/" + c.name
            if c.name == "TypeCode":
                self.terms.setdefault("BT-81", c.trimmed())
            elif c.name == "Information":
                self.terms["BT-82"] = self.terms.get("BT-82") or c.trimmed() or None
            elif c.name == "ApplicableTradeSettlementFinancialCard":
                if self.means:
                    self.say(21, path)
                else:
                    self.means = "BG-18"
                    self.terms["BT-87"], self.terms["BT-88"] = c.child_text("ID"), c.child_text("CardholderName")
            elif c.name == "PayerPartyDebtorFinancialAccount":
                if self.means:
                    self.say(22, path)
                else:
                    self.means = "BG-19"
                    self.terms["BT-91"] = account(c)
            elif c.name == "PayeePartyCreditorFinancialAccount":
                if self.means in (None, "transfers"):
                    self.means = "transfers"
                    self.hold(1, account(c), c.child_text("AccountName"), None)
                    last = self.held[-1]
                else:
                    self.say(23, path)
            elif c.name == "PayeeSpecifiedCreditorFinancialInstitution":
                if last:
                    last[3] = c.child_text("BICID")
                elif c.child_text("BICID"):
                    self.say(24, path)
            else:
                self.unmap(3, c)

    def summation(self, n):
        self.summed = True
        optional = {
            "ChargeTotalAmount": "BT-108",
            "AllowanceTotalAmount": "BT-107",
            "RoundingAmount": "BT-114",
            "TotalPrepaidAmount": "BT-113",
        }
        required = {
            "LineTotalAmount": "BT-106",
            "TaxBasisTotalAmount": "BT-109",
            "GrandTotalAmount": "BT-112",
            "DuePayableAmount": "BT-115",
        }
        for term in (*optional.values(), "BT-110", "BT-111"):
            self.terms[term] = None
        for c in n.kids:
            if c.name in optional:
                self.terms[optional[c.name]] = self.amount(n, c.name, "BG-22/" + optional[c.name])
            elif c.name == "TaxTotalAmount":
                self.tax_total(c)
            elif c.name not in required:
                self.unmap(2, c)
        for name, term in required.items():
            self.terms[term] = self.required_amount(n, SETTLEMENT + "/" + SUMMATION, name, "BG-22/" + term)

    def tax_total(self, c):
        raw, path = self.own(c), SUMMATION + "/TaxTotalAmount"
        message, value = amount_of(raw) if raw else (3, None)
        if message:
            self.say(16, path, None, raw)
        code = c.attributes.get("currencyID", "").strip(WHITE)
        bt5, bt6 = self.terms.get("BT-5"), self.terms.get("BT-6")
        if code and code == bt6:
            if code == bt5 and self.terms["BT-110"] is None:
                self.terms["BT-110"] = value
            self.terms["BT-111"] = value
        elif code and code != bt5:
            self.say(17, path, "BG-22/BT-110", code)
        else:
            self.terms["BT-110"] = value

    def settlement(self, n):
        self.first_code = self.mandate = self.creditor = self.means = None
        self.summed = False
        self.terms.update({term: 0 for term in ("BT-106", "BT-109", "BT-112", "BT-115")})
        for c in n.kids:
            self.child(c)
        if not self.summed:
            for term in ("BT-106", "BT-109", "BT-112", "BT-115"):
                self.missing(SETTLEMENT + "/" + SUMMATION, "BG-22/" + term)
        if self.mandate or self.creditor:
            self.groups.add("BG-16")
            if self.means in (None, "BG-19"):
                self.means = "BG-19"
                self.terms["BT-89"], self.terms["BT-90"] = self.mandate, self.creditor
            else:
                if self.mandate:
                    self.say(25, "SpecifiedTradePaymentTerms/DirectDebitMandateID")
                if self.creditor:
                    self.say(26, SETTLEMENT + "/CreditorReferenceID")
        if self.means in ("BG-18", "BG-19"):
            self.groups.add(self.means)

    def child(self, c):
        if c.name == "CreditorReferenceID":
            self.creditor = c.trimmed() or None
        elif c.name == "PaymentReference":
            self.groups.add("BG-16")
            self.terms["BT-83"] = c.trimmed() or None
        elif c.name == "TaxCurrencyCode":
            self.terms["BT-6"] = c.trimmed()
        elif c.name == "InvoiceCurrencyCode":
            self.terms["BT-5"] = c.trimmed()
        elif c.name == "BillingSpecifiedPeriod":
            self.groups.add("BG-14")
            self.terms["BT-73"], self.terms["BT-74"] = self.date(c, "StartDateTime"), self.date(c, "EndDateTime")
        elif c.name == "ReceivableSpecifiedTradeAccountingAccount":
            self.terms["BT-19"] = c.child_text("ID")
        else:
            read = {
                "PayeeTradeParty": self.payee,
                MEANS: self.payment_means,
                "ApplicableTradeTax": self.tax,
                "SpecifiedTradeAllowanceCharge": self.allowance_charge,
                "SpecifiedLogisticsServiceCharge": self.logistics_charge,
                "SpecifiedTradePaymentTerms": self.payment_terms,
                SUMMATION: self.summation,
                "InvoiceReferencedDocument": self.preceding,
            }.get(c.name)
            if read:
                read(c)
            else:
                self.unmap(1, c)

    # the printed reading

    def lines(self):
        yield ["accepted", len(self.held), len(self.entries), len(self.unmapped)]
        for group in sorted(self.groups):
            yield ["group", group]
        terms = [t for t, value in self.terms.items() if isinstance(t, str) and value is not None]
        for term in sorted(terms, key=lambda t: int(t[3:])):
            scheme = self.terms.get((term, "scheme"))
            yield ["term", term, self.terms[term]] + ([] if scheme is None else [scheme])
        for row in self.held:
            yield ["held", *row]
        for entry in self.entries:
            yield ["entry", *entry]
        for (parent, _), name in sorted(self.unmapped.items()):
            yield ["unmapped", PARENTS[parent] + "/" + name]


def printed(lines):
    field = lambda f: "-" if f is None else "".join(" " if ord(c) < 32 else c for c in str(f))
    return "".join("\t".join(map(field, line)) + "\n" for line in lines).encode()


def called(mode, rules, currency, identifier, table, text):
    """Refusal and reading of a call, one of them None; currency and identifier None where none is lent."""
    refused = refusal(mode, rules, table, text)
    if refused:
        return refused, None
    reading = Reading(mode, rules, currency, identifier)
    reading.settlement(tree(table, text))
    return None, reading


def answer(*case):
    """The printed reading of a call."""
    refused, reading = called(*case)
    return printed([["refused", *refused]] if refused else reading.lines())


# ---- stored cases


def parse_case(line):
    head, text = line.split(b" :", 1)
    mode, rules, currency, identifier, *numbers = head.decode().split(" ")
    none = lambda s: None if s == "-" else s
    text = re.sub(rb"\\([0-9a-f]{2})", lambda m: bytes([int(m[1], 16)]), text)
    return int(mode), int(rules), none(currency), none(identifier), [int(n) for n in numbers], text


def stored_cases(folder):
    with open(os.path.join(folder, "stdin"), "rb") as f:
        return f.read().split(b"\n")[:-1]


def main():
    folder = sys.argv[1]
    cases = stored_cases(folder)
    answers = open(os.path.join(folder, "stdout"), "rb").read().split(b"\n\n")[:-1]
    assert len(cases) == len(answers), "as many answers as cases"
    different = [i for i, (c, a) in enumerate(zip(cases, answers)) if answer(*parse_case(c)) != a + b"\n"]
    print("%d cases, %d different" % (len(cases), len(different)))
    for i in different[:10]:
        print("case %d:\n%s\n%s" % (i + 1, answers[i].decode(), answer(*parse_case(cases[i])).decode()))
    sys.exit(bool(different))


if __name__ == "__main__":
    main()
