//! Two settlements through the static library, from Rust: document 01's example, and a VAT breakdown with
//! a rate, without one, and with an amount that cannot be read. docs/LAYOUT.md has the places. Panics where
//! a number is not as it must be.

/// The numbers of a table's record, of the answer, and of the rows of the lists, as include/rulzhamm.h has
/// them.
const RECORD: usize = 6;
const ANSWER: usize = 65;
const HELD: usize = 14;
const ENTRY: usize = 6;
const UNMAPPED: usize = 3;

/// The reader's answer and its three lists.
struct Reading {
    answer: [i64; ANSWER],
    held: Vec<i64>,
    entries: Vec<i64>,
    unmapped: Vec<i64>,
}

unsafe extern "C" {
    fn rulzhamm_read(
        table: *const u32,
        table_len: usize,
        text: *const u8,
        text_len: usize,
        currency: *const u8,
        currency_len: usize,
        identifier: *const u8,
        identifier_len: usize,
        rules: u32,
        mode: u32,
        held: *mut i64,
        held_len: usize,
        entries: *mut i64,
        entries_len: usize,
        unmapped: *mut i64,
        unmapped_len: usize,
        answer: *mut [i64; ANSWER],
    );
}

/// Reads a settlement in mode 0, with lists of the room that refusal 10 asks for.
fn read(table: &[u32], text: &[u8], currency: &[u8], identifier: &[u8], rules: u32) -> Reading {
    let records = table.len() / RECORD;
    let mut reading = Reading {
        answer: [0; ANSWER],
        held: vec![0; HELD * records],
        entries: vec![0; 4 * ENTRY * records],
        unmapped: vec![0; UNMAPPED * records],
    };
    // Every pointer leads to as many elements as its length says, and nothing lent overlaps.
    unsafe {
        rulzhamm_read(
            table.as_ptr(),
            table.len(),
            text.as_ptr(),
            text.len(),
            currency.as_ptr(),
            currency.len(),
            identifier.as_ptr(),
            identifier.len(),
            rules,
            0,
            reading.held.as_mut_ptr(),
            reading.held.len(),
            reading.entries.as_mut_ptr(),
            reading.entries.len(),
            reading.unmapped.as_mut_ptr(),
            reading.unmapped.len(),
            &mut reading.answer,
        );
    }
    reading
}

/// What a place shows; `None` where it is absent.
fn shown<'a>(text: &'a [u8], place: &[i64]) -> Option<&'a [u8]> {
    let start = usize::try_from(place[0]).ok()?;
    let length = usize::try_from(place[1]).ok()?;
    text.get(start..start + length)
}

/// One element record: its parent, name and text, appended to the table and the text.
fn element(table: &mut Vec<u32>, text: &mut Vec<u8>, parent: u32, name: &str, content: &str) {
    let name_at = text.len() as u32;
    text.extend_from_slice(name.as_bytes());
    let text_at = text.len() as u32;
    text.extend_from_slice(content.as_bytes());
    table.extend([1, parent, name_at, name.len() as u32, text_at, content.len() as u32]);
}

fn main() {
    document_01();
    vat_breakdown();
}

fn document_01() {
    let (mut table, mut text) = (Vec::new(), Vec::new());
    element(&mut table, &mut text, 0, "ApplicableHeaderTradeSettlement", "");
    element(&mut table, &mut text, 0, "InvoiceCurrencyCode", "EUR");
    element(&mut table, &mut text, 0, "SpecifiedTradeSettlementPaymentMeans", "");
    element(&mut table, &mut text, 2, "PayeePartyCreditorFinancialAccount", "");
    element(&mut table, &mut text, 3, "IBANID", "DE1");
    element(&mut table, &mut text, 0, "Foo", "");

    let reading = read(&table, &text, b"EUR", b"", 0);
    assert_eq!(reading.answer[0], 0, "it is read");
    assert_eq!(reading.answer[2..5], [1, 0, 1], "held rows, entries, unmapped rows");
    assert_eq!(shown(&text, &reading.answer[5..7]), Some(&b"EUR"[..]), "BT-5");
    assert_eq!(shown(&text, &reading.answer[7..9]), None, "BT-6");
    assert_eq!(reading.answer[30], 1, "BG-16");
    assert_eq!(reading.held[0], 1, "a transfer");
    assert_eq!(shown(&text, &reading.held[1..3]), Some(&b"DE1"[..]), "its account");
    assert_eq!(reading.unmapped[0], 1, "below the settlement");
    assert_eq!(shown(&text, &reading.unmapped[1..3]), Some(&b"Foo"[..]), "its name");

    let refused = read(&table, &text, b"EUR", b"", 4096);
    assert_eq!(refused.answer[0], 2, "a rules number above 4,095");
    assert!(refused.held.iter().chain(&refused.entries).all(|n| *n == 0), "lists as they were");
}

fn vat_breakdown() {
    let (mut table, mut text) = (Vec::new(), Vec::new());
    element(&mut table, &mut text, 0, "ApplicableHeaderTradeSettlement", "");
    element(&mut table, &mut text, 0, "ApplicableTradeTax", "");
    element(&mut table, &mut text, 1, "BasisAmount", "10.00");
    element(&mut table, &mut text, 1, "CategoryCode", "S");
    element(&mut table, &mut text, 1, "RateApplicablePercent", "-19.50");
    element(&mut table, &mut text, 0, "ApplicableTradeTax", "");
    element(&mut table, &mut text, 5, "CalculatedAmount", " 1.000 ");

    // Rule BR-12 alone: of what is absent only BT-106 makes an entry.
    let reading = read(&table, &text, b"EUR", b"", 1);
    assert_eq!(reading.answer[2..5], [2, 2, 0], "held rows, entries, unmapped rows");
    let (first, second) = (&reading.held[..HELD], &reading.held[HELD..2 * HELD]);
    assert_eq!(first[..3], [2, 1000, 0], "VAT: taxable amount and tax");
    assert_eq!(shown(&text, &first[3..5]), Some(&b"S"[..]), "its category");
    assert_eq!(first[5..7], [-1950, 2], "its rate, unscaled, and the scale");
    assert_eq!(shown(&text, &second[3..5]), Some(&b""[..]), "a category that is absent is empty");
    assert_eq!(second[5..7], [0, -1], "no rate");
    let (malformed, absent) = (&reading.entries[..ENTRY], &reading.entries[ENTRY..2 * ENTRY]);
    assert_eq!(malformed[..4], [4, 11, 11, 1], "over two decimals: BG-23[1]/BT-117");
    assert_eq!(shown(&text, &malformed[4..6]), Some(&b"1.000"[..]), "the value");
    assert_eq!(absent[..], [9, 38, 1, -1, -1, 0], "BT-106 is absent: no index, no value");
}
