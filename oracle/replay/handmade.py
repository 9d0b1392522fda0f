#!/usr/bin/env python3
"""Adds cases made by hand to the sample.

    python3 oracle/replay/handmade.py FOLDER    adds to FOLDER/stdin and FOLDER/stdout

Each refusal that a case can show (4 needs a larger table, 10 shorter lists), mode 1, message 7, document
01's edges, odd tables, what the first or the last of several elements leaves, and settlements that have every
element, all of them changed in one way. The answers come from the model of document 01 (model.py); the program
`replay` of oracle/ compares those that the Rust can give.
"""
import os
import sys

from model import MEANS, SETTLEMENT, SUMMATION, answer, parse_case, refusal

NBSP = "\u00a0"
MOST = 4294967295


# ---- writing tables


def element(name, text="", *kids, **attributes):
    return name, text, attributes, kids


def settlement(*kids):
    return element(SETTLEMENT, "", *kids)


def laid(tree):
    """Records in document order, an element's attributes right after it, each text in that order."""
    table, text = [], bytearray()

    def record(kind, parent, name, value):
        table.extend([kind, parent])
        for piece in (name.encode(), value.encode()):
            table.extend([len(text), len(piece)])
            text.extend(piece)
        return len(table) // 6 - 1

    def lay(parent, tree):
        name, value, attributes, kids = tree
        own = record(1, parent, name, value)
        for attribute in attributes.items():
            record(2, own, *attribute)
        for kid in kids:
            lay(own, kid)

    lay(0, tree)
    return table, bytes(text)


def changed(table, record, field, value):
    return table[:6 * record + field] + [value] + table[6 * record + field + 1:]


def child(name, *kids, **parts):
    """A child of the settlement with leaves, and with other kids before them."""
    return element(name, "", *kids, *(element(part, text) for part, text in parts.items()))


def leaves(change, tree):
    """The elements that stand for a tree where `change` gives those that stand for a leaf."""
    name, text, attributes, kids = tree
    return [(name, text, attributes, [new for kid in kids for new in leaves(change, kid)])] if kids else change(tree)


# ---- the cases: (mode, rules, currency, identifier, (table, text))


def refusals():
    table, text = laid(settlement(element("Foo", "a", currencyID="EUR"), element("Bar", "b")))
    text += b"\xff\xc3\xa4\xed\xa0\x80\xc0\x80\xf4\x90\x80\x80\xe2\x82"
    odd = len(text) - 14
    end = len(text)
    for mode, rules in ((2, 0), (999999999, 4096), (0, 4096), (1, 999999999)):
        yield mode, rules, (table, text)
    for tables in ([], table[:1], table[:5], table + [1], [0] * 7):
        yield 0, 0, (tables, text)
    for field, value in ((0, 0), (0, 2), (0, 3), (1, 1), (1, MOST)):
        yield 0, 0, (changed(table, 0, field, value), text)
    misplaced = ((1, 0, 0), (3, 0, 3), (3, 0, MOST), (1, 1, 1), (2, 1, 3), (3, 1, 2), (3, 1, MOST))
    for record, field, value in misplaced:
        yield 0, 0, (changed(table, record, field, value), text)
    for record in range(4):
        for field in (2, 4):
            for start, length in ((end, 1), (end + 1, 0), (0, end + 1), (MOST, MOST), (1, MOST)):
                yield 0, 0, (changed(changed(table, record, field, start), record, field + 1, length), text)
            for start, length in ((0, 1), (1, 1), (2, 1), (3, 3), (6, 2), (8, 4), (12, 2)):
                yield 0, 0, (changed(changed(table, record, field, odd + start), record, field + 1, length), text)
    for name in ("", "CrossIndustryInvoice", SETTLEMENT.lower(), SETTLEMENT + "s", SETTLEMENT[:-1]):
        yield 0, 0, laid(element(name, ""))
    # several at once: the order of the refusals counts, not that of the records
    late_kind = changed(table, 3, 0, 7)
    yield 0, 0, (changed(late_kind, 1, 2, end + 1), text)
    yield 0, 0, (changed(changed(table, 1, 4, odd), 3, 2, end + 1), text)
    yield 0, 0, (changed(changed(table, 0, 3, 5), 3, 4, odd), text)
    yield 0, 0, (changed(late_kind, 0, 0, 2), text)
    yield 2, 4096, ([], b"")
    yield 0, 4096, ([], b"")


def amounts(text, **attributes):
    """One text as a required, an optional and a total amount."""
    names = ("LineTotalAmount", "RoundingAmount", "TaxTotalAmount")
    return settlement(element(SUMMATION, "", *(element(name, text, **attributes) for name in names)))


def rate(text):
    tax = element("ApplicableTradeTax", "", element("CategoryCode", "S"), element("RateApplicablePercent", text))
    return settlement(tax, element("SpecifiedTradeAllowanceCharge", "", element("CalculationPercent", text)))


def dates(text, **attributes):
    day = lambda spelling: element(spelling, text, **attributes)
    point = element("ApplicableTradeTax", "", element("TaxPointDate", "", day("DateString")))
    due = element("DueDateDateTime", "", day("DateTimeString"))
    return settlement(point, element("SpecifiedTradePaymentTerms", "", due))


def around(space):
    """Texts of each kind that mode 1 trims, with white space at an end, alone, and inside."""
    for read, front, back in ((amounts, "1", ".50"), (rate, "1", "9"), (dates, "2024", "0229")):
        for text in (space + front + back, front + back + space, space, front + space + back):
            yield read(text)


def modes():
    # XML Schema's four characters, alone and mixed; what only mode 0 trims, beside them and alone; what no
    # mode does
    blank = " ", "\t", "\n", "\r", " \t ", "\r\n", "\n\r\t "
    others = NBSP, "\x0b", "\x85"
    beside = (pair for other in others for pair in (other + "\n", "\r" + other))
    for space in (*blank, *beside, *others, "\x0c", "\u2003", "\u2028", "\x1f", ""):
        for tree in around(space):
            yield 1, 4095, laid(tree)
    # texts of another kind keep the trim of mode 0
    yield 1, 0, laid(amounts("\n1", currencyID=NBSP + "EUR\n"))
    yield 1, 0, laid(dates("20240229\n", format="102\n"))
    yield 1, 0, laid(settlement(element("InvoiceCurrencyCode", NBSP + "EUR" + NBSP), element("PaymentReference", "\n")))
    indicator = element("ChargeIndicator", "", element("Indicator", "\ntrue" + NBSP))
    tax = element("CategoryTradeTax", "", element("TypeCode", NBSP + "vat"), element("CategoryCode", "\nS"))
    yield 1, 4095, laid(settlement(element("SpecifiedTradeAllowanceCharge", "", indicator, tax)))


def long_percentages():
    for text in (
        "1" * 18, "1" * 19, "0" * 19, "-" + "9" * 18, "+" + "9" * 19, "0." + "0" * 17, "0." + "0" * 18,
        "." + "5" * 18, "." + "5" * 19, "1" * 18 + ".", "1" * 19 + ".", "1" * 19 + "e", "1" * 40, "0" * 30 + ".1",
    ):
        yield 0, 0, laid(rate(text))
        yield 1, 0, laid(rate(" " + text + "\t"))


def edges():
    for text in (
        "-92233720368547758.08", "92233720368547758.08", "92233720368547758.07", "1.000",
        "99999999999999999999.123", ".", "+", ".5", NBSP + "1",
    ):
        yield 0, 0, laid(amounts(text))
        yield 1, 0, laid(amounts(text))
    for text in ("20240229", "19000229", "00000229", "2024022"):
        yield 0, 0, laid(dates(text))
    for code in ("5", "3"):
        yield 0, 0, laid(settlement(child("ApplicableTradeTax", DueDateTypeCode=code)))
    totals = [element("TaxTotalAmount", text, currencyID="EUR") for text in ("10.00", "12.00")]
    codes = [element(name, "EUR") for name in ("InvoiceCurrencyCode", "TaxCurrencyCode")]
    yield 0, 0, laid(settlement(*codes, element(SUMMATION, "", *totals)))
    # the traps: the currency of an empty amount, a provider's account in an earlier payment means, tax
    # totals by the lent currency
    yield 0, 4095, laid(amounts(" ", currencyID="USD"))
    account = element("PayeePartyCreditorFinancialAccount", "", element("IBANID", "DE1"))
    provider = element("PayeeSpecifiedCreditorFinancialInstitution", "", element("BICID", "BIC"))
    yield 0, 0, laid(settlement(element(MEANS, "", account), element(MEANS, "", provider)))
    yield 0, 0, laid(settlement(element("InvoiceCurrencyCode", "USD"), element(SUMMATION, "", totals[0])))


def schemes():
    blank, both = {"schemeID": ""}, {"schemeID": "", "listID": "x"}
    for attributes in (blank, {"listID": ""}, both, {"listID": "x"}, {"schemeID": " 0088 "}):
        identifiers = element("GlobalID", "", **attributes), element("ID", "1")
        yield 0, 0, laid(settlement(element("PayeeTradeParty", "", *identifiers)))


def tax_totals():
    def codes(invoice, tax):
        return element("InvoiceCurrencyCode", invoice), element("TaxCurrencyCode", tax)

    def summation(*amounts):
        return element(SUMMATION, "", *(element("TaxTotalAmount", text, **attributes) for text, attributes in amounts))

    def totals(invoice, tax, *amounts):
        return 0, 0, laid(settlement(*codes(invoice, tax), summation(*amounts)))

    code = lambda currency: {"currencyID": currency}
    euro, dollar, pound, none = code("EUR"), code("USD"), code("GBP"), {}
    # one after the other in BT-5, in BT-6, in a third currency and without one: an unreadable one is blank
    for attributes in (euro, dollar, pound, none):
        for texts in (("10.00", "x"), ("10.00", " "), ("x", "10.00"), ("10.00", "x", "12.00")):
            yield totals("EUR", "USD", *((text, attributes) for text in texts))
    # where BT-5 is BT-6, BT-110 is set only while it is blank
    for texts in (("10.00", "x"), ("x", "10.00"), ("x", "10.00", "12.00"), ("0", "12.00")):
        yield totals("EUR", "EUR", *((text, euro) for text in texts))
    # each of the two is blank alone
    yield totals("EUR", "USD", ("10.00", euro), ("20.00", dollar), ("x", none))
    yield totals("EUR", "USD", ("10.00", none), ("20.00", dollar), ("x", dollar))
    yield totals("EUR", "", ("10.00", euro), ("x", code(" ")))
    # one without a currency sets BT-110 alone; case matters, in codes and in names
    yield totals("EUR", "EUR", ("10.00", none), ("11.00", code("eur")), ("12.00", {"currencyid": "USD"}))
    # the codes that count are the last ones before the summation
    each = summation(*((str(n), code(c)) for n, c in enumerate(("EUR", "GBP", "USD", "PLN", "CHF", "SEK"))))
    yield 0, 0, laid(settlement(*codes("USD", "PLN"), *codes("EUR", "GBP"), each, *codes("CHF", "SEK")))


def means_of_payment():
    account = lambda iban: child("PayeePartyCreditorFinancialAccount", IBANID=iban)
    provider = lambda **bic: child("PayeeSpecifiedCreditorFinancialInstitution", **bic)
    card, debited = child("ApplicableTradeSettlementFinancialCard", ID="1"), child("PayerPartyDebtorFinancialAccount")
    bic = provider(BICID="BIC")
    nothing = provider(), provider(BICID=" ")
    card_of = lambda name, number: child("ApplicableTradeSettlementFinancialCard", ID=number, CardholderName=name)
    debit = lambda iban: child("PayerPartyDebtorFinancialAccount", IBANID=iban)
    debtors = child("PayerSpecifiedDebtorFinancialInstitution", BICID="BIC2")
    for means in (
        # a later provider overwrites the one of the last account in the same payment means, also by nothing
        *([[account("DE1"), bic, last]] for last in (*nothing, provider(BICID="BIC2"))),
        *([[account("DE1"), bic, account("DE2"), last]] for last in nothing),
        *([[account("DE1"), bic], [last]] for last in (*nothing, bic)),
        *([[account("DE1"), bic], [account("DE2"), last]] for last in nothing),
        # without an account held there only one with a BICID is worth an entry
        *([[last]] for last in (*nothing, bic)),
        [[card, account("DE1"), bic]],
        [[account("DE1")], [card, debited, bic]],
        # it goes to one account, and no other name will do; an equal account is one more
        [[account("DE1"), account("DE2"), bic, debtors, account("DE1"), provider(ProprietaryID="P")]],
        # the first card stays as it is, and so does the first debited account; another one is an entry
        [[card_of("A", "1"), card_of("B", "2")]],
        [[card_of("A", "1")], [card_of("B", "2")]],
        [[card_of(" ", " "), card_of("B", "2")], [card_of("A", "1")]],
        [[card_of("A", "1")], [card_of("A", "1")]],
        [[debit("DE1")], [debit("DE2")]],
        # the first code, even blank, and the first text that is not
        [[element("TypeCode", " "), element("TypeCode", "58")], [element("TypeCode", "59")]],
        [[element("Information", " "), element("Information", "a")], [element("Information", "b")]],
    ):
        yield 0, 0, laid(settlement(*(element(MEANS, "", *kids) for kids in means)))
    # IBANID, else ProprietaryID
    for name in ("PayeePartyCreditorFinancialAccount", "PayerPartyDebtorFinancialAccount"):
        for parts in ({"ProprietaryID": "P", "IBANID": "I"}, {"IBANID": " ", "ProprietaryID": "P"}, {"IBANID": " "}):
            yield 0, 0, laid(settlement(element(MEANS, "", child(name, **parts))))


def vat_points():
    day = lambda text: element("ApplicableTradeTax", "", child("TaxPointDate", DateString=text))
    # the first code is kept, readable or not; an equal one says nothing
    for codes in (("3", "5"), ("x", "x"), ("x", "5", "29"), (" ", "5"), ("5", "3", "5"), (" 5", "5 "), ("x", " y ")):
        yield 0, 0, laid(settlement(*(child("ApplicableTradeTax", DueDateTypeCode=text) for text in codes)))
    # dates until one is read
    for days in (("x", "20240229"), ("20240229", "20240301"), ("20240229", "x"), ("x", "x")):
        yield 0, 0, laid(settlement(*map(day, days)))


def last_ones():
    """The last wins, even blank."""
    account, terms = "ReceivableSpecifiedTradeAccountingAccount", "SpecifiedTradePaymentTerms"
    for last in (child(account), child(account, ID=" "), child(account, ID="2")):
        yield 0, 0, laid(settlement(child(account, ID="1"), last))
    for name in ("CreditorReferenceID", "PaymentReference", "InvoiceCurrencyCode", "TaxCurrencyCode"):
        for last in ("", " ", "2"):
            yield 0, 0, laid(settlement(element(name, "1"), element(name, last)))
    # mandate and creditor identifier: alone, with a debited account, beside a card
    mandate, creditor = child(terms, DirectDebitMandateID="M"), element("CreditorReferenceID", "C")
    blank = child(terms), child(terms, DirectDebitMandateID=" "), element("CreditorReferenceID", " ")
    debited = element(MEANS, "", child("PayerPartyDebtorFinancialAccount", IBANID="DE1"))
    card = element(MEANS, "", child("ApplicableTradeSettlementFinancialCard", ID="1"))
    for means in ((), (debited,), (card,)):
        for last in ((), *((b,) for b in blank), (creditor, child(terms, DirectDebitMandateID="N"))):
            yield 0, 0, laid(settlement(*means, creditor, mandate, *last))
    # all of a group's terms, then none of them
    date = lambda name, text: child(name, DateTimeString=text)
    full = (
        element(terms, "", element("Description", " d "), date("DueDateDateTime", "20240229")),
        element("BillingSpecifiedPeriod", "", date("StartDateTime", "20240101"), date("EndDateTime", "20240131")),
        element("PayeeTradeParty", "", element("Name", "N"), element("ID", "1", schemeID="s")),
        element(SUMMATION, "", *(element(name, "1") for name in (
            "LineTotalAmount", "ChargeTotalAmount", "AllowanceTotalAmount", "TaxBasisTotalAmount", "TaxTotalAmount",
            "RoundingAmount", "GrandTotalAmount", "TotalPrepaidAmount", "DuePayableAmount",
        ))),
    )
    for group in full:
        yield 0, 4095, laid(settlement(group, element(group[0])))
        yield 0, 4095, laid(settlement(element(group[0]), group))
    # all of them, then with texts that cannot be read or with none; an identifier and its scheme
    organization = child("SpecifiedLegalOrganization", element("ID", "1", schemeID="s"))
    full = *full[:2], child("PayeeTradeParty", organization, Name="N"), full[3]
    for text in ("x", ""):
        last = [new for group in full for new in leaves(lambda leaf: [element(leaf[0], text)], group)]
        yield 0, 4095, laid(settlement(*full, *last))


def full_table():
    """As many records as the program `replay` has room for: an index up to 254."""
    yield 0, 2048, laid(settlement(*(element("InvoiceReferencedDocument") for _ in range(255))))


def odd_tables():
    # record 0 with a text and attributes; children of a leaf
    reference = element("PaymentReference", "1", element("ID", "2"), x="y")
    yield 0, 0, laid(element(SETTLEMENT, "text", reference, currencyID="EUR"))
    # an element of the settlement's name, an empty name, names beside names, empty names everywhere
    near = [element(name, "x") for name in (SETTLEMENT, "", "PaymentReferenc", "PaymentReferences")]
    yield 0, 0, laid(settlement(*near))
    yield 0, 0, laid(settlement(*(element(name, "", element("")) for name in (MEANS, SUMMATION, ""))))
    yield from odd_attributes()
    yield from odd_places()
    # bytes below 32, a text that is a dash, and one that is white to its end
    texts = element("PaymentReference", "a\0b\x1fc\td\n"), element("InvoiceCurrencyCode", "-"), element("Foo\t", "")
    yield 0, 0, laid(settlement(*texts))
    spaces = element("PaymentReference", "\x0b\x0c\u0085\u2028\u3000x\u200b"), element("TaxCurrencyCode", "\x1c\x1d")
    yield 0, 0, laid(settlement(*spaces))
    # an element ninety deep
    deep = element("Foo", "")
    for _ in range(90):
        deep = element("Foo", "", deep)
    yield 0, 0, laid(settlement(deep))
    # names in falling order, each twice
    names = [element("Name%02d" % (n // 2)) for n in range(60, 0, -1)]
    yield 0, 0, laid(settlement(*names, element(MEANS, "", *names)))
    # their order is that of bytes, not of letters or of UTF-16; payment means with nothing in it; a text
    # further down, which is not the element's own
    names = [element(name) for name in ("\U00010000", "\uff21", "\u00e9", "z", "a", "Z", "A", MEANS)]
    yield 0, 0, laid(settlement(*names, element("TaxCurrencyCode", "", element("TaxCurrencyCode", "USD"))))


def odd_attributes():
    table, text = laid(settlement(element(SUMMATION, "", element("TaxTotalAmount", "1"))))
    text += b"currencyIDEURUSD"
    at = len(text)
    euro, dollar = ([2, 2, at - 16, 10, start, 3] for start in (at - 6, at - 3))
    # two of one name: the earlier counts, also an empty one
    yield 0, 0, (table + euro + dollar, text)
    yield 0, 0, (table + dollar + euro, text)
    yield 0, 0, (table + changed(dollar, 0, 5, 0) + dollar, text)
    # one without a name; one of record 0, which counts for no child
    yield 0, 0, (table + [2, 2, at, 0, at - 3, 3] + dollar, text)
    yield 0, 0, (table + changed(dollar, 0, 1, 0), text)


def odd_places():
    text = (SETTLEMENT + "PayeeTradePartyNameIDschemeID").encode()
    root, party = [1, 0, 0, 31, 0, 0], [1, 0, 31, 15, 0, 0]
    name, number = [46, 4, 31, 5], [50, 2, 0, 5]
    # children of two parents in turns, attributes far from their elements
    children = [1, 2] + number + [1, 1] + name + [1, 2] + name + [1, 1] + number
    yield 0, 0, (root + party + party + children + [2, 6, 52, 8, 50, 2] + [2, 3, 52, 8, 46, 4], text)
    # overlapping places, one text for all, places at the text's end, empty places anywhere
    yield 0, 0, (root + [1, 0, 0, 10, 5, 10] + [1, 0, 5, 10, 0, 10] + [1, 0, 0, 10, 60, 0], text)
    yield 0, 0, (root + [1, 0, 60, 0, 60, 0] + [1, 0, 31, 0, 0, 60] + [2, 0, 60, 0, 60, 0], text)
    yield 0, 0, (root + [1, 0, 31, 0, 0, 60], text)


def whole():
    """A settlement with every element that is read, but for card and debited account."""
    date = lambda name: child(name, DateTimeString="20240131", DateString="20240229")
    vat = {"TypeCode": "VAT", "CategoryCode": "S", "RateApplicablePercent": "19"}
    charge = lambda indicator: child(
        "SpecifiedTradeAllowanceCharge",
        child("ChargeIndicator", Indicator=indicator), child("CategoryTradeTax", **vat),
        ActualAmount="2", BasisAmount="20", CalculationPercent="10", Reason="r", ReasonCode="c",
    )
    return settlement(
        element("CreditorReferenceID", "C"), element("PaymentReference", "R"),
        element("TaxCurrencyCode", "USD"), element("InvoiceCurrencyCode", "EUR"),
        child(
            "PayeeTradeParty", element("GlobalID", "2", schemeID="s", listID="l"),
            child("SpecifiedLegalOrganization", element("ID", "3", schemeID="s"), GlobalID="4"), Name="N", ID="1",
        ),
        child(
            MEANS, child("PayeePartyCreditorFinancialAccount", IBANID="I", ProprietaryID="P", AccountName="A"),
            child("PayeeSpecifiedCreditorFinancialInstitution", BICID="B"),
            child("PayeePartyCreditorFinancialAccount", ProprietaryID="P"), TypeCode="58", Information="i",
        ),
        child(
            "ApplicableTradeTax", child("TaxPointDate", DateString="20240229"), **vat, DueDateTypeCode="5",
            BasisAmount="100", CalculatedAmount="19", ExemptionReason="e", ExemptionReasonCode="c",
        ),
        child(
            "BillingSpecifiedPeriod",
            child("StartDateTime", element("DateTimeString", "20240101", format="102")), date("EndDateTime"),
        ),
        charge("true"), charge("no"),
        child("SpecifiedLogisticsServiceCharge", child("AppliedTradeTax", **vat), AppliedAmount="3", Description="d"),
        child("SpecifiedTradePaymentTerms", date("DueDateDateTime"), Description=" t ", DirectDebitMandateID="M"),
        child(
            SUMMATION, element("TaxTotalAmount", "19", currencyID="EUR"), LineTotalAmount="1", ChargeTotalAmount="2",
            AllowanceTotalAmount="3", TaxBasisTotalAmount="4", RoundingAmount="5", GrandTotalAmount="6",
            TotalPrepaidAmount="7", DuePayableAmount="8",
        ),
        child("InvoiceReferencedDocument", date("FormattedIssueDateTime"), IssuerAssignedID="4711"),
        child("ReceivableSpecifiedTradeAccountingAccount", ID="0400"),
    )


def paid(*kids):
    """A settlement of what is said of a direct debit, and a payment means with these kids."""
    due = child("DueDateDateTime", DateString="20240229")
    return settlement(
        element("CreditorReferenceID", "C"), child(MEANS, *kids),
        child("SpecifiedTradePaymentTerms", due, DirectDebitMandateID="M"),
    )


def changes(tree):
    """The tree, changed everywhere in one way."""
    def each(change):
        return leaves(change, tree)[0]

    def blank(leaf):
        return leaf[0], " ", dict.fromkeys(leaf[2], " "), ()

    def padded(leaf):
        name, text, attributes, _ = leaf
        return name, "\t" + NBSP + text + NBSP + "\t", {a: NBSP + value + NBSP for a, value in attributes.items()}, ()

    def empty_first(group):
        return (*group[:3], [new for kid in group[3] for new in (element(kid[0]), kid)])

    def other_case(groups):
        return [(kid[0].swapcase(), *kid[1:]) if kid[3] else kid for kid in groups]

    # the first of a name counts: before another leaf, and blank or empty before a full one
    yield 0, each(lambda leaf: [leaf, element(leaf[0], leaf[1] + "2")])
    yield 0, each(lambda leaf: [blank(leaf), leaf])
    yield 0, settlement(*map(empty_first, tree[3]))
    # leaves of a name in another case, and leaves further down, are others
    yield 0, each(lambda leaf: [(leaf[0].swapcase(), *leaf[1:]), element("Foo", "", leaf)])
    # and so are groups: those of the settlement, and those below them
    yield 0, settlement(*other_case(tree[3]))
    yield 0, settlement(*((*kid[:3], other_case(kid[3])) for kid in tree[3]))
    # mode 1 trims amounts, percentages and dates less, and all else as mode 0; each text on a line of its own
    yield 1, each(lambda leaf: [padded(leaf)])
    yield 1, each(lambda leaf: [(leaf[0], "\r\n" + leaf[1] + "\r\n", *leaf[2:])])


def wholes():
    """Settlements that together have every element that is read, each changed."""
    yield from changes(whole())
    yield from changes(paid(child("ApplicableTradeSettlementFinancialCard", ID="1", CardholderName="N")))
    yield from changes(paid(child("PayerPartyDebtorFinancialAccount", IBANID="I", ProprietaryID="P")))
    yield from changes(paid(child("PayerPartyDebtorFinancialAccount", ProprietaryID="P")))


def cases():
    families = (
        refusals, modes, long_percentages, edges, schemes, odd_tables,
        tax_totals, means_of_payment, vat_points, last_ones, full_table,
    )
    for family in families:
        for mode, rules, (table, text) in family():
            yield mode, rules, "EUR", None, table, text
    charge = laid(settlement(element("SpecifiedLogisticsServiceCharge", "", element("AppliedAmount", "1"))))
    for identifier in (None, "a#conformant#b", "a:conformant:b", "a#conformant:b"):
        yield (0, 4095, None, identifier, *charge)
    # each of the two charges with what only the other one has
    logistics = child("SpecifiedLogisticsServiceCharge", ActualAmount="1", Reason="r", ReasonCode="c")
    allowance = child("SpecifiedTradeAllowanceCharge", AppliedAmount="1", Description="d")
    yield (0, 4095, None, "a#conformant#b", *laid(settlement(logistics, allowance)))
    for mode, tree in wholes():
        yield (mode, 4095, "EUR", "a#conformant#b", *laid(tree))
    for code in ("EUR", "eur", "EU", "ZZZ", "USD"):
        yield (0, 4095, None, None, *laid(amounts("1", currencyID=code)))
        yield (0, 4095, "ZZZ", None, *laid(amounts("1", currencyID=code)))


def written(mode, rules, currency, identifier, table, text):
    head = [str(f) for f in (mode, rules, currency or "-", identifier or "-", *table)]
    shown = "".join(chr(b) if 32 <= b < 127 and b != 0x5C else "\\%02x" % b for b in text)
    return (" ".join(head) + " :" + shown).encode()


def main():
    folder = sys.argv[1]
    every = list(dict.fromkeys(written(*case) for case in cases()))
    refused = {refused[0] for refused in (refusal(c[0], c[1], *c[4:]) for c in map(parse_case, every)) if refused}
    assert refused == {1, 2, 3, 5, 6, 7, 8, 9}, refused
    answers = [answer(*parse_case(case)) for case in every]
    assert any(b"entry\t7\t" in a for a in answers)
    with open(os.path.join(folder, "stdin"), "ab") as f:
        f.writelines(case + b"\n" for case in every)
    with open(os.path.join(folder, "stdout"), "ab") as f:
        f.writelines(a + b"\n" for a in answers)
    print("%d cases by hand" % len(every))


if __name__ == "__main__":
    main()
