//! The published Rust's answer, brought to the common form.

use crate::generate::Document;
use crate::names::{MESSAGES, REQUIRED_BY};
use crate::reading::{Entry, Field, Reading, Term};
use original::en16931::{Date, Identifier, InvoiceAmount, Percentage, profiles};
use original::invoice::{DocumentAllowanceCharge, Invoice, PaymentMeans};
use original::report::Kind;
use original::{Node, Outcome};
use std::sync::atomic::Ordering;

/// The settlement: the first element of that local name, in document order.
pub fn find<'a, 'i>(xml: &'a roxmltree::Document<'i>) -> Node<'a, 'i> {
    xml.descendants()
        .find(|n| n.is_element() && original::name(*n) == "ApplicableHeaderTradeSettlement")
        .expect("an ApplicableHeaderTradeSettlement")
}

pub fn parse(xml: &str) -> roxmltree::Document<'_> {
    roxmltree::Document::parse(xml).expect("well-formed XML")
}

/// Puts a rules number in force for the readings that follow.
pub fn put_in_force(rules: u32) {
    profiles::RULES.store(rules, Ordering::Relaxed);
}

fn outcome(n: Node<'_, '_>, d: &Document) -> Outcome {
    put_in_force(d.rules);
    original::settlement(n, d.currency.clone(), d.identifier.clone())
}

/// The reading of the settlement `n` of `d`, without the order of making.
pub fn reading(n: Node<'_, '_>, d: &Document) -> Reading {
    let (invoice, entries, unmapped) = outcome(n, d);
    // A full path starts at the settlement: the names above it are cut.
    let full = original::path_of(n);
    let above = &full[..full.len() - original::name(n).len()];
    Reading {
        groups: groups(&invoice),
        terms: terms(&invoice),
        held: held(&invoice),
        order: Vec::new(),
        entries: entries.iter().map(|e| entry(e, above)).collect(),
        unmapped: unmapped.into_iter().map(String::into_bytes).collect(),
    }
}

/// In what order the rows were made. The Rust keeps a list for each kind, so it is run on the
/// settlement's first children, one more each time.
pub fn order_of_making(n: Node<'_, '_>, d: &Document) -> Vec<usize> {
    let closing: String = n
        .ancestors()
        .filter(|a| a.is_element())
        .map(|a| {
            let name = d.xml[a.position() + 1..].split([' ', '\t', '\r', '\n', '/', '>']).next();
            format!("</{}>", name.expect("a tag"))
        })
        .collect();
    let ends = original::kids(n).skip(1).map(|later| later.position());
    let shorter = ends.map(|end| {
        let xml = format!("{}{closing}", &d.xml[..end]);
        held(&outcome(find(&parse(&xml)), d).0)
    });
    let mut order = Vec::new();
    let mut so_far = [0; 5];
    for rows in shorter.chain([held(&outcome(n, d).0)]) {
        for kind in 0..5 {
            order.extend((so_far[kind]..rows[kind].len()).map(|_| kind + 1));
            so_far[kind] = rows[kind].len();
        }
    }
    order
}

fn groups(inv: &Invoice) -> [bool; 5] {
    let means = inv.payment.as_ref().and_then(|p| p.means.as_ref());
    [
        inv.payee.is_some(),
        inv.invoicing_period.is_some(),
        inv.payment.is_some(),
        matches!(means, Some(PaymentMeans::Card(_))),
        matches!(means, Some(PaymentMeans::DirectDebit(_))),
    ]
}

fn terms(inv: &Invoice) -> Vec<Term> {
    let pay = inv.payment.as_ref();
    let (card, debit) = match pay.and_then(|p| p.means.as_ref()) {
        Some(PaymentMeans::Card(c)) => (Some(c), None),
        Some(PaymentMeans::DirectDebit(d)) => (None, Some(d)),
        _ => (None, None),
    };
    let (period, payee, t) = (inv.invoicing_period.as_ref(), inv.payee.as_ref(), &inv.totals);
    let content = |id: Option<&Identifier>| Field::or_absent(id, |id| Field::text(id.content()));
    let scheme = |id: Option<&Identifier>| Field::or_absent(id.and_then(Identifier::scheme), Field::text);
    let payee_id = payee.and_then(|p| p.identifier.as_ref());
    let legal_id = payee.and_then(|p| p.legal_registration.as_ref());
    let point_code = inv.vat_point_date_code.as_ref().map(|c| c.as_str().parse().expect("3, 35 or 432"));
    [
        ("BT-5", Field::or_absent(inv.currency.as_ref(), |c| Field::text(c.as_str()))),
        ("BT-6", Field::or_absent(inv.vat_accounting_currency.as_ref(), |c| Field::text(c.as_str()))),
        ("BT-7", date(inv.vat_point_date)),
        ("BT-8", Field::or_absent(point_code, Field::Number)),
        ("BT-9", date(inv.due_date)),
        ("BT-19", text(&inv.accounting_reference)),
        ("BT-20", text(&inv.payment_terms)),
        ("BT-59", Field::or_absent(payee, |p| text(&p.name))),
        ("BT-60", content(payee_id)),
        ("BT-61", content(legal_id)),
        ("BT-73", date(period.and_then(|p| p.start))),
        ("BT-74", date(period.and_then(|p| p.end))),
        ("BT-81", Field::or_absent(pay.and_then(|p| p.means_code.as_ref()), |c| Field::text(c.as_str()))),
        ("BT-82", Field::or_absent(pay, |p| text(&p.means_text))),
        ("BT-83", Field::or_absent(pay, |p| text(&p.remittance_information))),
        ("BT-87", Field::or_absent(card, |c| text(&c.primary_account_number))),
        ("BT-88", Field::or_absent(card, |c| text(&c.holder_name))),
        ("BT-89", Field::or_absent(debit, |d| text(&d.mandate_reference))),
        ("BT-90", Field::or_absent(debit, |d| text(&d.creditor_identifier))),
        ("BT-91", Field::or_absent(debit, |d| text(&d.debited_account))),
        ("BT-106", amount(t.line_total)),
        ("BT-107", Field::or_absent(t.allowance_total, amount)),
        ("BT-108", Field::or_absent(t.charge_total, amount)),
        ("BT-109", amount(t.taxable_total)),
        ("BT-110", Field::or_absent(t.vat_total, amount)),
        ("BT-111", Field::or_absent(t.vat_total_accounting, amount)),
        ("BT-112", amount(t.gross_total)),
        ("BT-113", Field::or_absent(t.paid, amount)),
        ("BT-114", Field::or_absent(t.rounding, amount)),
        ("BT-115", amount(t.due)),
    ]
    .into_iter()
    .map(|(number, content)| {
        let id = match number {
            "BT-60" => payee_id,
            "BT-61" => legal_id,
            _ => None,
        };
        Term { number, content, scheme: scheme(id) }
    })
    .collect()
}

fn held(inv: &Invoice) -> [Vec<Vec<Field>>; 5] {
    let transfers = match inv.payment.as_ref().and_then(|p| p.means.as_ref()) {
        Some(PaymentMeans::CreditTransfer(t)) => t.as_slice(),
        _ => &[],
    };
    let transfers = transfers
        .iter()
        .map(|t| vec![text(&t.account_identifier), text(&t.account_name), text(&t.provider_identifier)]);
    let taxes = inv.vat_breakdown.iter().map(|v| {
        vec![
            amount(v.taxable_amount),
            amount(v.tax_amount),
            Field::text(v.category.as_str()),
            percent(v.rate),
            text(&v.exemption_reason),
            Field::or_absent(v.exemption_reason_code.as_ref(), |c| Field::text(c.as_str())),
        ]
    });
    let preceding = inv.preceding_invoices.iter();
    let preceding = preceding.map(|p| vec![Field::text(p.reference.as_str()), date(p.issue_date)]);
    [
        transfers.collect(),
        taxes.collect(),
        inv.allowances.iter().map(allowance_charge).collect(),
        inv.charges.iter().map(allowance_charge).collect(),
        preceding.collect(),
    ]
}

fn allowance_charge(a: &DocumentAllowanceCharge) -> Vec<Field> {
    vec![
        amount(a.amount),
        Field::or_absent(a.base_amount, amount),
        percent(a.percentage),
        Field::text(a.vat.category.as_str()),
        percent(a.vat.rate),
        text(&a.reason),
        Field::or_absent(a.reason_code.as_ref(), |c| Field::text(c.as_str())),
    ]
}

fn text(s: &Option<String>) -> Field {
    Field::or_absent(s.as_ref(), Field::text)
}
fn amount(a: InvoiceAmount) -> Field {
    Field::Number(a.to_minor_units())
}
fn date(d: Option<Date>) -> Field {
    let number = |d: Date| i64::from(d.year()) * 10_000 + i64::from(d.month()) * 100 + i64::from(d.day());
    Field::or_absent(d.map(number), Field::Number)
}
fn percent(p: Option<Percentage>) -> Field {
    Field::or_absent(p.map(Percentage::into_decimal), |d| Field::Percentage(d.mantissa(), d.scale()))
}

/// The entry, its message told by its kind and wording; kind, rule and hint must be those that
/// docs/MESSAGES.md gives the message, and so must the rule that the wording of a missing term names.
fn entry(e: &original::report::Entry, above: &str) -> Entry {
    let message = message(e);
    let [kind, rule, hint] = MESSAGES[message as usize];
    assert_eq!(kind, format!("{:?}", e.kind), "the kind of {e}");
    assert_eq!(rule, e.rule.as_deref().unwrap_or(""), "the rule of {e}");
    assert_eq!(hint, e.hint.as_deref().unwrap_or(""), "the hint of {e}");
    if e.kind == Kind::Missing {
        let term = e.term.as_deref().and_then(|t| t.rsplit('/').next()).expect("a term");
        let named = e.message.split("absent; ").nth(1).and_then(|m| m.split(' ').next()).expect("a rule");
        assert_eq!(REQUIRED_BY.get(term), Some(&named), "the rule that requires the term of {e}");
    }
    Entry {
        message,
        path: e.path.strip_prefix(above).unwrap_or(&e.path).into(),
        term: e.term.clone(),
        value: text(&e.value),
    }
}

fn message(e: &original::report::Entry) -> u32 {
    match e.kind {
        Kind::Missing => return 9,
        Kind::Schema => return 10,
        Kind::Duplicate => return 14,
        _ if e.hint.as_deref().is_some_and(|h| h.starts_with("BR-CL-03")) => return 1,
        _ => {}
    }
    const STARTS: [(&str, u32); 23] = [
        ("an amount in ", 2),
        ("amount: malformed", 3),
        ("amount: over two decimals", 4),
        ("amount: out of range", 5),
        ("not an xs:decimal", 6),
        ("outside the range a decimal holds", 7),
        ("more digits than a decimal holds", 7),
        ("a tax whose type code is not VAT", 8),
        ("format ", 11),
        ("not CCYYMMDD", 12),
        ("date: no such day", 13),
        ("not a CII VAT point date code", 15),
        ("not an amount the model can hold", 16),
        ("a tax total in ", 17),
        ("not an xs:boolean", 18),
        ("absent, and CII requires it", 19),
        ("a logistics service charge", 20),
        ("a card beside", 21),
        ("a debited account beside", 22),
        ("an account beside", 23),
        ("a payment service provider", 24),
        ("a mandate beside", 25),
        ("a creditor identifier beside", 26),
    ];
    let found = STARTS.iter().find(|(start, _)| e.message.starts_with(start));
    found.unwrap_or_else(|| panic!("unknown message: {e}")).1
}
