//! Stored cases: a line `MODE RULES CURRENCY IDENTIFIER NUMBERS.. :TEXT` each, `-` for none lent, in the
//! text `\HH` for a byte that is not printable ASCII and for the backslash.

use crate::layout::Layout;
use crate::library::Lent;
use std::fmt::Write;

/// The line of a case.
pub fn written(lent: Lent<'_>, layout: &Layout) -> String {
    let or_dash = |s: &[u8]| if s.is_empty() { "-".into() } else { String::from_utf8(s.into()).expect("UTF-8") };
    let mut line = format!("{} {} {} {}", lent.mode, lent.rules, or_dash(lent.currency), or_dash(lent.identifier));
    for number in &layout.table {
        write!(line, " {number}").expect("a string");
    }
    line.push_str(" :");
    for b in &layout.text {
        match b {
            b' '..=b'~' if *b != b'\\' => line.push(char::from(*b)),
            _ => write!(line, "\\{b:02x}").expect("a string"),
        }
    }
    line
}

/// The case of a line.
pub fn parsed(line: &str) -> (Lent<'_>, Layout) {
    let (head, text) = line.split_once(" :").expect("a text");
    let mut fields = head.split(' ');
    let mut field = || fields.next().expect("a field");
    let number = |s: &str| s.parse::<u32>().expect("a number");
    let or_none = |s| if s == "-" { "" } else { s };
    let (mode, rules) = (number(field()), number(field()));
    let (currency, identifier) = (or_none(field()).as_bytes(), or_none(field()).as_bytes());
    let table = fields.map(number).collect();
    (Lent { mode, rules, currency, identifier }, Layout { table, text: bytes(text) })
}

fn bytes(text: &str) -> Vec<u8> {
    let mut parts = text.split('\\');
    let mut out = parts.next().unwrap_or_default().as_bytes().to_vec();
    for part in parts {
        out.push(u8::from_str_radix(&part[..2], 16).expect("two hexadecimal digits"));
        out.extend_from_slice(&part.as_bytes()[2..]);
    }
    out
}
