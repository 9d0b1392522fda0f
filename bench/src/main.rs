//! `bench` measures the published Rust (from a parsed tree; parsing is not counted) and the proved reader
//! (from a laid-out table) on the same settlements, in one run and one thread, and prints the rows of
//! docs/PERFORMANCE.md. `bench worst [WORDS]` measures the worst accepted tables instead, or those with these
//! words in their names; `bench profile` runs the proved reader alone on a large invoice, for a profiler.

mod clock;
mod invoice;
mod worst;

use compare::generate::Document;
use compare::layout;
use compare::library::{self, Lent, Lists};
use compare::tree::Tree;
use compare::{lent, markup, published};

const SIZES: [usize; 5] = [16, 64, 256, 1024, 4096];
/// Batches, and about how many records are read in one.
const REPETITIONS: usize = 400;
const BATCH_RECORDS: usize = 8192;

fn main() {
    let given: Vec<String> = std::env::args().skip(1).collect();
    match given.iter().map(String::as_str).collect::<Vec<_>>()[..] {
        [] => invoices(),
        ["worst"] => worst_tables(""),
        ["worst", words] => worst_tables(words),
        ["profile"] => profile(),
        _ => panic!("usage: bench [worst [WORDS] | profile]"),
    }
}

fn document(tree: &Tree) -> Document {
    Document {
        xml: markup::plain(tree),
        currency: Some("EUR".into()),
        identifier: Some("urn:cen.eu:en16931:2017".into()),
        rules: 4095,
    }
}

/// The Rust's time for a settlement.
fn rust_time(d: &Document, runs: clock::Runs) -> f64 {
    let xml = published::parse(&d.xml);
    let node = published::find(&xml);
    published::put_in_force(d.rules);
    clock::best(runs, || original::settlement(node, d.currency.clone(), d.identifier.clone()))
}

/// The proved reader's time for a table.
fn reader_time(layout: &layout::Layout, lent: Lent<'_>, runs: clock::Runs) -> f64 {
    let mut lists = Lists::of_records(layout.table.len() / 6);
    let time = clock::best(runs, || library::call(std::hint::black_box(layout), lent, &mut lists));
    assert_eq!(lists.answer[0], 0, "an accepted table");
    time
}

fn invoices() {
    times("An invoice", &SIZES, invoice::settlement);
    println!();
    times("VAT breakdowns alone", &SIZES[1..], invoice::taxes);
    println!();
    times("Tax totals alone", &SIZES[1..], invoice::tax_totals);
}

/// The two times for settlements of these many records.
fn times(name: &str, sizes: &[usize], settlement: fn(usize) -> Tree) {
    println!("| {name}, records | Rust, ns a record | Rulzhamm, ns a record | Ratio |");
    println!("|---|---|---|---|");
    for &records in sizes {
        let tree = settlement(records);
        let d = document(&tree);
        let layout = layout::plain(&tree);
        let xml = published::parse(&d.xml);
        let theirs = published::reading(published::find(&xml), &d);
        let ours = library::reading(&layout, lent(&d)).expect("a reading");
        assert_eq!(theirs.difference(&ours), None);
        let runs = clock::Runs { batches: REPETITIONS, batch: BATCH_RECORDS / records, seconds: u64::MAX };
        let rust = rust_time(&d, runs) / records as f64;
        let reader = reader_time(&layout, lent(&d), runs) / records as f64;
        println!("| {records} | {rust:.1} | {reader:.1} | {:.2} |", reader / rust);
    }
}

fn profile() {
    let tree = invoice::settlement(SIZES[4]);
    let runs = clock::Runs { batches: 1, batch: 10_000, seconds: u64::MAX };
    let time = reader_time(&layout::plain(&tree), lent(&document(&tree)), runs);
    println!("{:.1} ns a record", time / SIZES[4] as f64);
}

/// A single call is a batch; a slow table is called less often.
const CALLS: clock::Runs = clock::Runs { batches: 50, batch: 1, seconds: 2 };

fn worst_tables(words: &str) {
    println!("| Texts apart | Rust, ms | Rulzhamm, ms |");
    println!("|---|---|---|");
    for worst in worst::apart().iter().filter(|w| w.name.contains(words)) {
        let rust = match worst.document.xml.as_str() {
            "" => "-".into(),
            _ => format!("{:.1}", rust_time(&worst.document, CALLS) / 1e6),
        };
        let reader = reader_time(&worst.layout, worst.lent(), CALLS) / 1e6;
        println!("| {} | {rust} | {reader:.1} |", worst.name);
    }
    println!();
    println!("| Over one text | Rulzhamm, s |");
    println!("|---|---|");
    for worst in worst::overlapping().iter().filter(|w| w.name.contains(words)) {
        let reader = reader_time(&worst.layout, worst.lent(), CALLS) / 1e9;
        println!("| {} | {reader:.1} |", worst.name);
    }
}
