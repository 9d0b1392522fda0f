//! Tables whose texts do not overlap: together they have no more bytes than the text.

use super::{BYTES, MIXED, MIXED_WHITE, RECORDS, SETTLEMENT, SUMMATION, Worst, mixed};
use compare::random::Random;
use compare::tree::Tree;

/// How long a lent identifier or currency is here.
const LENT: usize = 10_000_000;
/// White space of two bytes.
const BLANK: &str = "\u{A0}";

fn settlement(children: Vec<Tree>) -> Tree {
    Tree::group(SETTLEMENT, children)
}

fn summation(children: Vec<Tree>) -> Tree {
    settlement(vec![Tree::group(SUMMATION, children)])
}

fn many(count: usize, child: impl Fn(usize) -> Tree) -> Vec<Tree> {
    (0..count).map(child).collect()
}

/// A text of white space that ends with `end`.
fn late(blanks: usize, end: &str) -> String {
    BLANK.repeat(blanks) + end
}

/// Thousands of children of one name, each read.
fn one_name() -> Worst {
    let taxes = many(RECORDS - 1, |_| Tree::leaf("ApplicableTradeTax", ""));
    Worst::of_tree("4,095 empty taxes, three entries each", &settlement(taxes))
}

/// A group whose every child is compared with nine names, as long as two of them.
fn one_group() -> Worst {
    let children = many(RECORDS - 2, |_| Tree::leaf("TaxPointDatE", ""));
    let tree = settlement(vec![Tree::group("ApplicableTradeTax", children)]);
    Worst::of_tree("one tax of 4,094 children, none of a name looked for", &tree)
}

/// Accounts that wait for their providers.
fn accounts() -> Worst {
    let children = many(2 * 1023, |i| match i % 2 {
        0 => Tree::group("PayeePartyCreditorFinancialAccount", vec![Tree::leaf("IBANID", "DE02120300000000202051")]),
        _ => Tree::group("PayeeSpecifiedCreditorFinancialInstitution", vec![Tree::leaf("BICID", "COBADEFFXXX")]),
    });
    let tree = settlement(vec![Tree::group("SpecifiedTradeSettlementPaymentMeans", children)]);
    Worst::of_tree("one payment means of 1,023 accounts and providers", &tree)
}

/// Each child of an optional amount's name means the first such child, which stands behind half of all
/// children, each with a name that differs in its last letter.
fn amounts_behind_others() -> Worst {
    let half = (RECORDS - 2) / 2;
    let mut children = many(half, |_| Tree::leaf("AllowanceTotalAmounT", "1"));
    children.extend(many(half, |_| Tree::leaf("AllowanceTotalAmount", "1")));
    Worst::of_tree("2,047 optional amounts behind 2,047 others", &summation(children))
}

/// Rounding amounts, of which the first alone is read, for each.
fn repeated(name: &'static str, first: Tree) -> Worst {
    let left = RECORDS - 2 - first.records();
    let mut children = vec![first];
    children.extend(many(left, |_| Tree::leaf("RoundingAmount", "")));
    Worst::of_tree(name, &summation(children))
}

fn repeated_blanks() -> Worst {
    let name = "4,094 optional amounts, the first of 495,000 U+00A0 and `1`";
    repeated(name, Tree::leaf("RoundingAmount", late(495_000, "1")))
}

fn repeated_zeros() -> Worst {
    let name = "4,094 optional amounts, the first of 991,000 zeros";
    repeated(name, Tree::leaf("RoundingAmount", "0".repeat(991_000)))
}

fn repeated_error() -> Worst {
    let name = "4,094 optional amounts, the first of 495,000 U+00A0 and `x`, one entry each";
    repeated(name, Tree::leaf("RoundingAmount", late(495_000, "x")))
}

fn repeated_currency() -> Worst {
    let name = "4,093 optional amounts, the first in a currency of 495,000 U+00A0 and `EUR`";
    repeated(name, Tree::leaf("RoundingAmount", "1").with("currencyID", &late(495_000, "EUR")))
}

/// Attributes with names as long as currencyID.
fn repeated_attributes() -> Worst {
    let name = "2,047 optional amounts, the first with 2,047 attributes";
    let mut first = Tree::leaf("RoundingAmount", "1");
    for i in 0..2047 {
        first = first.with(&format!("curren{i:04}"), "");
    }
    repeated(name, first)
}

fn attributes() -> Worst {
    let mut id = Tree::leaf("GlobalID", "1");
    for i in 0..RECORDS - 3 {
        id = id.with(&format!("sche{i:04}"), "");
    }
    let payee = Tree::group("PayeeTradeParty", vec![id]);
    Worst::of_tree("a payee's identifier with 4,093 attributes", &settlement(vec![payee]))
}

fn empty_under_identifier() -> Worst {
    let worst = Worst::of_tree("no child, identifier of 10 MB", &settlement(Vec::new()));
    worst.with_identifier("x".repeat(LENT))
}

fn logistics_charges(name: &'static str) -> Worst {
    let charges = many(RECORDS - 1, |_| Tree::leaf("SpecifiedLogisticsServiceCharge", ""));
    Worst::of_tree(name, &settlement(charges))
}

fn charges_under_identifier() -> Worst {
    logistics_charges("4,095 logistics charges, identifier of 10 MB").with_identifier("x".repeat(LENT))
}

/// The mark of an extension begins at each byte.
fn charges_under_marks() -> Worst {
    logistics_charges("4,095 logistics charges, identifier of 10 MB of `#`").with_identifier("#".repeat(LENT))
}

/// The Rust quotes the invoice currency in each of its entries, which takes 16 GB here.
fn amounts_under_currency() -> Worst {
    let amount = |name| Tree::leaf(name, "1").with("currencyID", "EUR");
    let taxes =
        many(819, |_| Tree::group("ApplicableTradeTax", vec![amount("BasisAmount"), amount("CalculatedAmount")]));
    let worst = Worst::of_tree("1,638 amounts in EUR, invoice currency of 10 MB", &settlement(taxes));
    worst.with_currency("E".repeat(LENT)).without_the_rust()
}

fn third_currency() -> Worst {
    let totals = many(2047, |_| Tree::leaf("TaxTotalAmount", "1x").with("currencyID", "USD"));
    Worst::of_tree("2,047 tax totals in a third currency, two entries each", &summation(totals))
}

/// Currencies that differ from both of the invoice in their last letter.
fn long_currencies() -> Worst {
    let currency = |last| "E".repeat(480) + last;
    let total = |_| Tree::leaf("TaxTotalAmount", "1").with("currencyID", &currency("D"));
    let tree = settlement(vec![
        Tree::leaf("InvoiceCurrencyCode", currency("A")),
        Tree::leaf("TaxCurrencyCode", currency("B")),
        Tree::group(SUMMATION, many(2046, total)),
    ]);
    Worst::of_tree("2,046 tax totals in a third currency, each currency of 481 bytes", &tree)
}

/// Codes that differ from the first in their last letter.
fn point_codes() -> Worst {
    let code = |i| Tree::leaf("DueDateTypeCode", "5".repeat(470) + if i == 0 { "5" } else { "6" });
    let taxes = many(2047, |i| Tree::group("ApplicableTradeTax", vec![code(i)]));
    Worst::of_tree("2,047 VAT point codes of 471 bytes", &settlement(taxes))
}

fn wrong_tax_totals() -> Worst {
    let totals = many(4094, |_| Tree::leaf("TaxTotalAmount", late(120, "x")));
    Worst::of_tree("4,094 tax totals of 120 U+00A0 and `x`", &summation(totals))
}

fn wrong_amounts() -> Worst {
    let amount = |name| Tree::leaf(name, late(180, "x"));
    let taxes =
        many(1365, |_| Tree::group("ApplicableTradeTax", vec![amount("BasisAmount"), amount("CalculatedAmount")]));
    Worst::of_tree("2,730 amounts of 180 U+00A0 and `x`", &settlement(taxes))
}

fn mixed_amount() -> Worst {
    let amount = Tree::leaf("BasisAmount", mixed(&mut Random::new(1), BYTES - 100, MIXED_WHITE, " "));
    let tree = settlement(vec![Tree::group("ApplicableTradeTax", vec![amount])]);
    Worst::of_tree("one amount of a million mixed bytes, before a stray byte", &tree).before_a_stray()
}

fn wrong_percentages() -> Worst {
    let rate = |_| Tree::leaf("RateApplicablePercent", late(235, "x"));
    let taxes = many(2047, |i| Tree::group("ApplicableTradeTax", vec![rate(i)]));
    Worst::of_tree("2,047 percentages of 235 U+00A0 and `x`", &settlement(taxes))
}

/// Dates of the other spelling, which is said too.
fn wrong_dates(name: &'static str, mut text: impl FnMut() -> String) -> Worst {
    let invoices = (0..1365).map(|_| {
        let date = Tree::group("FormattedIssueDateTime", vec![Tree::leaf("DateString", text())]);
        Tree::group("InvoiceReferencedDocument", vec![date])
    });
    Worst::of_tree(name, &settlement(invoices.collect()))
}

fn blank_dates() -> Worst {
    wrong_dates("1,365 dates of 355 U+00A0 and `x`, two entries each", || late(355, "x"))
}

fn mixed_dates() -> Worst {
    let mut random = Random::new(1);
    let text = || mixed(&mut random, 710, MIXED_WHITE, " ");
    wrong_dates("the same of 710 mixed bytes, before a stray byte", text).before_a_stray()
}

/// White space at both ends of a text.
fn long_reference(name: &'static str, blank: &str) -> Worst {
    let blanks = blank.repeat((BYTES - 100) / 2 / blank.len());
    Worst::of_tree(name, &settlement(vec![Tree::leaf("PaymentReference", format!("{blanks}x{blanks}"))]))
}

fn long_amount_in_mode_1() -> Worst {
    let spaces = " ".repeat((BYTES - 100) / 2);
    let amount = Tree::leaf("TaxTotalAmount", format!("{spaces}x{spaces}"));
    Worst::of_tree("a tax total of `x` between a million spaces, mode 1", &summation(vec![amount])).in_mode_1()
}

/// Each new name goes before all others.
fn falling_names(name: &'static str, beginning: &str) -> Worst {
    let names = many(RECORDS - 1, |i| Tree::leaf(&format!("{beginning}{:04}", RECORDS - i), ""));
    Worst::of_tree(name, &settlement(names))
}

/// All of them.
pub fn all() -> Vec<Worst> {
    vec![
        one_name(),
        one_group(),
        accounts(),
        attributes(),
        amounts_behind_others(),
        repeated_blanks(),
        repeated_zeros(),
        repeated_error(),
        repeated_currency(),
        repeated_attributes(),
        empty_under_identifier(),
        charges_under_identifier(),
        charges_under_marks(),
        amounts_under_currency(),
        third_currency(),
        long_currencies(),
        point_codes(),
        wrong_tax_totals(),
        wrong_amounts(),
        mixed_amount(),
        wrong_percentages(),
        blank_dates(),
        mixed_dates(),
        long_reference("a reference of `x` between 520,000 U+00A0", BLANK),
        long_reference("a reference of `x` between 1,040,000 spaces", " "),
        long_amount_in_mode_1(),
        falling_names("4,095 unmapped names of 5 bytes, falling", "N"),
        falling_names("4,095 unmapped names of 244 bytes, falling", &"N".repeat(240)),
        falling_names("the same in two-byte letters, before a stray byte", &"Ä".repeat(120)).before_a_stray(),
        falling_names("the same in mixed letters, before a stray byte", &mixed(&mut Random::new(1), 240, MIXED, "N"))
            .before_a_stray(),
    ]
}
