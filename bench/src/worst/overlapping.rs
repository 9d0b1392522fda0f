//! Tables over one text, in which each name or text may be nearly as long as the whole.

use super::{BYTES, MIXED, MIXED_WHITE, RECORDS, SETTLEMENT, SUMMATION, Worst, mixed};
use compare::layout::Layout;
use compare::random::Random;

/// Where the letters begin, and how many bytes of them there are; one byte is left behind them.
const LETTERS: u32 = 31 + 47 + 14 + 16;
const LENGTH: u32 = BYTES as u32 - LETTERS - 1;

/// Records 1 on, each made by `record`, over a text of four names and the letters.
fn over_one_text(name: &'static str, letters: &str, record: impl Fn(u32) -> [u32; 6]) -> Worst {
    let names = [SETTLEMENT, SUMMATION, "TaxTotalAmount", "PaymentReference"].concat();
    assert_eq!((names.len(), letters.len()), (LETTERS as usize, LENGTH as usize));
    let mut table = vec![1, 0, 0, SETTLEMENT.len() as u32, 0, 0];
    for i in 1..RECORDS as u32 {
        table.extend(record(i));
    }
    Worst::of_layout(name, Layout { table, text: (names + letters).into_bytes() })
}

/// Letters that end with thousands of a letter of one byte, so that they can be cut there.
fn filled(letters: &[&str], fill: &str) -> String {
    mixed(&mut Random::new(1), LENGTH as usize - RECORDS, letters, fill) + &fill.repeat(RECORDS)
}

/// A summation of tax totals with all letters.
fn tax_total(i: u32) -> [u32; 6] {
    match i {
        1 => [1, 0, 31, 47, LETTERS, LENGTH],
        _ => [1, 1, 31 + 47, 14, LETTERS, LENGTH],
    }
}

fn reference(_: u32) -> [u32; 6] {
    [1, 0, 31 + 47 + 14, 16, LETTERS, LENGTH]
}

/// An attribute that nobody reads: only spans to check.
fn attribute(_: u32) -> [u32; 6] {
    [2, 0, LETTERS, LENGTH, LETTERS, LENGTH]
}

/// An unmapped element, whose name is the beginning of the one before it.
fn falling(i: u32) -> [u32; 6] {
    [1, 0, LETTERS, LENGTH - i, LETTERS, LENGTH]
}

/// All of them.
pub fn all() -> Vec<Worst> {
    let digits = filled(&["0"], "0");
    let after_a_comma = digits.replacen('0', ",", 1);
    let white = filled(MIXED_WHITE, " ");
    let (two_bytes, mixed) = (filled(&["ä"], "N"), filled(MIXED, "N"));
    vec![
        over_one_text("4,094 tax totals of a million digits", &digits, tax_total),
        over_one_text("4,094 tax totals of a comma and a million digits", &after_a_comma, tax_total),
        over_one_text("4,094 tax totals of a million mixed bytes", &white, tax_total),
        over_one_text("the same before a stray byte", &white, tax_total).before_a_stray(),
        over_one_text("4,095 references of a million bytes of U+00A0", &filled(&["\u{A0}"], " "), reference),
        over_one_text("8,190 spans of a million bytes in two-byte letters", &two_bytes, attribute),
        over_one_text("4,095 unmapped names of a million bytes, falling", &filled(&["N"], "N"), falling),
        over_one_text("the same in two-byte letters, before a stray byte", &two_bytes, falling).before_a_stray(),
        over_one_text("the same in mixed letters, before a stray byte", &mixed, falling).before_a_stray(),
    ]
}
