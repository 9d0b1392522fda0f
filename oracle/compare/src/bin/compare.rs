//! `compare [DOCUMENTS [EXCHANGED [SEED]]]` reads made-up settlements with the published Rust and with
//! the proved reader, in mode 0, and compares the readings; so it does in mode 1 where their texts have
//! no other white space than XML Schema's, which both modes trim. Then it exchanges neighbouring
//! children in the first EXCHANGED documents and compares the proved reader's readings with each other.
//! It ends with 1 where anything differs.

use compare::generate::{self, Document};
use compare::library::{self, Lent, Refusal};
use compare::random::Random;
use compare::reading::Reading;
use compare::smallest::smallest;
use compare::tally::Tally;
use compare::tree::Tree;
use compare::{layout, lent, markup, published};

/// Up to so many children the order of making is found out too.
const ORDERED_CHILDREN: usize = 100;

/// So many differences are made small, in documents of up to so many records.
const SHRUNK: usize = 10;
const SHRUNK_RECORDS: usize = 256;

#[derive(Default)]
struct Run {
    tally: Tally,
    records: usize,
    large: usize,
    ordered: usize,
    exchanges: usize,
    differences: usize,
}

fn main() {
    let given: Vec<u64> = std::env::args().skip(1).map(|a| a.parse().expect("a number")).collect();
    let [documents, exchanged, seed] = [0, 1, 2].map(|i| given.get(i).copied().unwrap_or([50_000, 5_000, 1][i]));
    let mut run = Run::default();
    for i in 0..documents {
        run.document(seed + i, i < exchanged);
    }
    run.report(documents, exchanged, seed);
    std::process::exit(i32::from(run.differences > 0));
}

impl Run {
    fn document(&mut self, seed: u64, exchange: bool) {
        let d = generate::document(seed);
        let xml = published::parse(&d.xml);
        let node = published::find(&xml);
        let tree = Tree::of(node);
        let mut theirs = published::reading(node, &d);
        if tree.children.len() <= ORDERED_CHILDREN {
            theirs.order = published::order_of_making(node, &d);
            self.ordered += 1;
        }
        let mut random = Random::new(!seed);
        let ours = read(&tree, &d, &mut random);
        if let Some(difference) = differs(&theirs, &ours) {
            self.different(seed, &difference, &tree, &d, 0);
        }
        self.in_mode_1(seed, &tree, &d, &mut random);
        self.tally.note(&theirs);
        self.records += tree.records();
        self.large += usize::from(tree.records() > 256);
        if exchange && let Ok(reading) = &ours {
            self.exchanges_of(seed, &tree, &d, reading, &mut random);
        }
    }

    /// Mode 1, on `tree` with XML Schema's white space in place of all other.
    fn in_mode_1(&mut self, seed: u64, tree: &Tree, d: &Document, random: &mut Random) {
        let xml = markup::plain(&tree.schema_spaced());
        let xml = published::parse(&xml);
        let node = published::find(&xml);
        let tree = Tree::of(node);
        let ours = library::reading(&layout::any(&tree, random), Lent { mode: 1, ..lent(d) });
        if let Some(difference) = differs(&published::reading(node, d), &ours) {
            self.different(seed, &difference, &tree, d, 1);
        }
    }

    fn exchanges_of(&mut self, seed: u64, tree: &Tree, d: &Document, reading: &Reading, random: &mut Random) {
        for i in 0..tree.children.len().saturating_sub(1) {
            if !tree.may_exchange(i) {
                continue;
            }
            self.exchanges += 1;
            let other = read(&tree.exchanged(i), d, random);
            let difference = match &other {
                Ok(other) => reading.difference_but_order(other),
                Err(refusal) => Some(format!("refused {refusal:?}")),
            };
            if let Some(difference) = difference {
                self.differences += 1;
                println!("seed {seed}, children {i} and {} exchanged: {difference}", i + 1);
            }
        }
    }

    fn different(&mut self, seed: u64, difference: &str, tree: &Tree, d: &Document, mode: u32) {
        self.differences += 1;
        println!("seed {seed}, mode {mode}: {difference}");
        if self.differences > SHRUNK || tree.records() > SHRUNK_RECORDS {
            return;
        }
        let lent = (&d.currency, &d.identifier, d.rules);
        let plain = |tree: &Tree| {
            let xml = markup::plain(tree);
            let xml = published::parse(&xml);
            let theirs = published::reading(published::find(&xml), d);
            differs(&theirs, &library::reading(&layout::plain(tree), Lent { mode, ..compare::lent(d) }))
        };
        match plain(tree) {
            Some(_) => {
                let small = smallest(tree.clone(), &|t| plain(t).is_some());
                println!("  smallest: {}", markup::plain(&small));
                println!("  lent {lent:?}: {}", plain(&small).expect("a difference"));
            }
            None => println!("  not in the plain layout; lent {lent:?}"),
        }
    }

    fn report(&self, documents: u64, exchanged: u64, seed: u64) {
        println!("documents {documents} (seeds from {seed}), of more than 256 records {}", self.large);
        println!("records {}", self.records);
        println!("order of making compared in {} documents", self.ordered);
        println!("exchanges {} in the first {exchanged} documents", self.exchanges);
        for name in Tally::everything() {
            println!("{name}: {}", self.tally.of(&name));
        }
        for name in self.tally.missing() {
            println!("never met: {name}");
        }
        println!("differences {}", self.differences);
    }
}

/// The proved reader on some layout of `tree`.
fn read(tree: &Tree, d: &Document, random: &mut Random) -> Result<Reading, Refusal> {
    library::reading(&layout::any(tree, random), lent(d))
}

fn differs(theirs: &Reading, ours: &Result<Reading, Refusal>) -> Option<String> {
    match ours {
        Ok(ours) => theirs.difference(ours),
        Err(refusal) => Some(format!("refused {refusal:?}")),
    }
}
