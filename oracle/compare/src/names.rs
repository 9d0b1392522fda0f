//! What the numbers of an entry stand for, taken from the lists in docs/.

use std::collections::HashMap;
use std::sync::LazyLock;

/// The second column of a list, by number; number 0 is empty.
fn column(list: &'static str) -> Vec<&'static str> {
    let mut names = vec![""];
    for line in list.lines().filter(|l| l.starts_with("| ") && !l.starts_with("| No.")) {
        let mut cells = line.trim_matches('|').split('|').map(str::trim);
        let number: usize = cells.next().and_then(|n| n.parse().ok()).expect("a number");
        assert_eq!(number, names.len(), "numbers count up");
        names.push(cells.next().expect("a name"));
    }
    names
}

pub static PATHS: LazyLock<Vec<&str>> = LazyLock::new(|| column(include_str!("PATHS.md")));
pub static TERMS: LazyLock<Vec<&str>> = LazyLock::new(|| column(include_str!("TERMS.md")));

const MESSAGES_MD: &str = include_str!("MESSAGES.md");

/// The kind, rule and hint of each message, as docs/MESSAGES.md has them.
pub static MESSAGES: LazyLock<Vec<[&str; 3]>> = LazyLock::new(|| {
    let rows = MESSAGES_MD.lines().filter(|l| l.starts_with("| ") && !l.starts_with("| No."));
    let three = rows.map(|line| {
        let cells: Vec<&str> = line.split('|').map(str::trim).collect();
        [cells[3], cells[4], cells[5]]
    });
    std::iter::once([""; 3]).chain(three).collect()
});

/// The rule that requires a term, as the last paragraph of docs/MESSAGES.md has them.
pub static REQUIRED_BY: LazyLock<HashMap<&str, &str>> = LazyLock::new(|| {
    let pairs = MESSAGES_MD.trim_end_matches(['.', '\n']).rsplit(": ").next().expect("terms and rules");
    pairs.split(',').map(|pair| pair.trim().split_once(' ').expect("a term and its rule")).collect()
});

/// The parents of unmapped elements, from 1.
pub const PARENTS: [&str; 4] = [
    "",
    "ApplicableHeaderTradeSettlement",
    "SpecifiedTradeSettlementHeaderMonetarySummation",
    "SpecifiedTradeSettlementPaymentMeans",
];
