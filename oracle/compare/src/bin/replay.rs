//! `replay FOLDER` runs FOLDER/stdin through the library's C function, compares the printed readings
//! with FOLDER/stdout and, where the published Rust can answer a case, with its answer, and then tries
//! what no stored case can show: the largest tables and lists with too little room (refusals 4 and 10).
//! It ends with 1 where an answer differs.

use compare::generate::Document;
use compare::layout::{self, Layout};
use compare::library::{self, ENTRY_ROOM, HELD_ROOM, Lent, Lists, Refusal, UNMAPPED_ROOM};
use compare::print::printed;
use compare::reading::Reading;
use compare::tree::Tree;
use compare::{case, markup, published};

const NAME: &[u8] = b"ApplicableHeaderTradeSettlement";

fn main() {
    let folder = std::env::args().nth(1).expect("usage: replay FOLDER");
    let file = |name| std::fs::read_to_string(format!("{folder}/{name}")).expect(name);
    let (cases, answers) = (file("stdin"), file("stdout"));
    let mut answers = answers.split_terminator("\n\n");
    let (mut ours, mut theirs) = (Compared::default(), Compared::default());
    for (i, line) in cases.lines().enumerate() {
        let (lent, layout) = case::parsed(line);
        let answer = answers.next().expect("an answer");
        ours.note(i, &shown(&library::reading(&layout, lent)), answer);
        if let Some(reading) = published_answer(lent, &layout, answer) {
            theirs.note(i, &printed(&reading), answer);
        }
    }
    println!("{} stored answers equal, {} different", ours.equal, ours.different);
    println!("{} of them are the Rust's, {} are not", theirs.equal, theirs.different);
    limits();
    std::process::exit(i32::from(ours.different + theirs.different > 0));
}

/// How many answers were the stored ones and how many were not.
#[derive(Default)]
struct Compared {
    equal: usize,
    different: usize,
}

impl Compared {
    fn note(&mut self, case: usize, found: &[u8], stored: &str) {
        if found.trim_ascii_end() == stored.trim_ascii_end().as_bytes() {
            self.equal += 1;
        } else {
            self.different += 1;
            println!("case {}: {}\nagainst\n{stored}\n", case + 1, String::from_utf8_lossy(found));
        }
    }
}

/// The Rust's answer to a case. It has none in mode 1, to refused tables and to those that no XML gives,
/// and knows no message 7.
fn published_answer(lent: Lent<'_>, layout: &Layout, stored: &str) -> Option<Reading> {
    if lent.mode != 0 || !stored.starts_with("accepted") || stored.contains("\nentry\t7\t") {
        return None;
    }
    let tree = layout::tree(layout);
    let text = |lent: &[u8]| (!lent.is_empty()).then(|| String::from_utf8_lossy(lent).into_owned());
    let d = Document {
        xml: markup::plain(&tree),
        currency: text(lent.currency),
        identifier: text(lent.identifier),
        rules: lent.rules,
    };
    let xml = roxmltree::Document::parse(&d.xml).ok()?;
    let node = xml.root_element();
    if Tree::of(node) != tree {
        return None;
    }
    let mut reading = published::reading(node, &d);
    reading.order = published::order_of_making(node, &d);
    Some(reading)
}

fn shown(outcome: &Result<Reading, Refusal>) -> Vec<u8> {
    match outcome {
        Ok(reading) => printed(reading),
        Err((number, record)) => format!("refused\t{number}\t{record}\n").into(),
    }
}

/// A table of so many records, the first a settlement or not, and a text of so many bytes.
fn table(records: usize, bytes: usize, settlement: bool) -> Layout {
    let name = if settlement { NAME.len() as u32 } else { 3 };
    let mut table = vec![1, 0, 0, name, 0, 0];
    table.resize(6 * records, 0);
    table.chunks_exact_mut(6).skip(1).for_each(|record| record.copy_from_slice(&[1, 0, 0, 3, 0, 3]));
    let mut text = NAME.to_vec();
    text.resize(bytes, b' ');
    Layout { table, text }
}

/// The refusal of a call with lists of so many numbers; none where it is read.
fn refusal(layout: &Layout, held: usize, entries: usize, unmapped: usize) -> Option<Refusal> {
    let mut lists = Lists::of_records(layout.table.len() / 6);
    lists.held.truncate(held);
    lists.entries.truncate(entries);
    lists.unmapped.truncate(unmapped);
    let lent = Lent { currency: b"", identifier: b"", rules: 4095, mode: 0 };
    library::call(layout, lent, &mut lists);
    library::read_answer(layout, &lists).err()
}

/// Refusals 4 and 10, and what is just not refused.
fn limits() {
    let roomy = |layout: &Layout| refusal(layout, usize::MAX, usize::MAX, usize::MAX);
    assert_eq!(roomy(&table(4096, 1 << 20, true)), None);
    assert_eq!(roomy(&table(4097, 100, true)), Some((4, 0)));
    assert_eq!(roomy(&table(1, (1 << 20) + 1, true)), Some((4, 0)));
    assert_eq!(roomy(&table(4097, 100, false)), Some((4, 0)), "4 is before 9");
    for n in [1, 2, 100, 4096] {
        let settlement = table(n, 100, true);
        let [held, entries, unmapped] = [HELD_ROOM, ENTRY_ROOM, UNMAPPED_ROOM].map(|room| room * n);
        assert_eq!(refusal(&settlement, held, entries, unmapped), None);
        assert_eq!(refusal(&settlement, held - 1, entries, unmapped), Some((10, 0)));
        assert_eq!(refusal(&settlement, held, entries - 1, unmapped), Some((10, 0)));
        assert_eq!(refusal(&settlement, held, entries, unmapped - 1), Some((10, 0)));
        assert_eq!(refusal(&settlement, 0, 0, 0), Some((10, 0)));
        assert_eq!(refusal(&table(n, 100, false), 0, 0, 0), Some((9, 0)), "9 is before 10");
    }
    println!("refusals 4 and 10 as document 01 has them");
}
