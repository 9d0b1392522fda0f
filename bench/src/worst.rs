//! The worst tables that the reader accepts, as far as we know them: much to compare, to move or to walk.

mod apart;
mod overlapping;

use compare::generate::Document;
use compare::layout::{self, Layout};
use compare::library::Lent;
use compare::markup;
use compare::random::Random;
use compare::tree::Tree;

const RECORDS: usize = 4096;
const BYTES: usize = 1 << 20;
const SETTLEMENT: &str = "ApplicableHeaderTradeSettlement";
const SUMMATION: &str = "SpecifiedTradeSettlementHeaderMonetarySummation";

/// Letters of one and two bytes, and white space and others of one to three: in any order, so that no
/// processor foresees what comes next.
const MIXED: &[&str] = &["N", "Ä"];
const MIXED_WHITE: &[&str] = &[" ", "\u{A0}", "x", "ä", "\u{3000}"];

/// So many bytes of these letters, and of `fill` behind them.
fn mixed(random: &mut Random, bytes: usize, letters: &[&str], fill: &str) -> String {
    let mut text = String::new();
    while text.len() + 3 <= bytes {
        text += random.pick(letters);
    }
    let left = bytes - text.len();
    text + &fill.repeat(left)
}

/// A table and what is lent beside it; its XML where the Rust is measured, too.
pub struct Worst {
    pub name: &'static str,
    pub layout: Layout,
    pub document: Document,
    pub mode: u32,
}

impl Worst {
    /// A table that the Rust does not read.
    fn of_layout(name: &'static str, layout: Layout) -> Self {
        assert!(layout.table.len() <= 6 * RECORDS && layout.text.len() <= BYTES, "an accepted table: {name}");
        let document = Document {
            xml: String::new(),
            currency: Some("EUR".into()),
            identifier: Some("urn:cen.eu:en16931:2017".into()),
            rules: 4095,
        };
        Self { name, layout, document, mode: 0 }
    }

    /// The table of a tree, in which no two texts overlap.
    fn of_tree(name: &'static str, tree: &Tree) -> Self {
        let mut worst = Self::of_layout(name, layout::plain(tree));
        worst.document.xml = markup::plain(tree);
        worst
    }

    fn with_currency(mut self, currency: String) -> Self {
        self.document.currency = Some(currency);
        self
    }

    fn with_identifier(mut self, identifier: String) -> Self {
        self.document.identifier = Some(identifier);
        self
    }

    /// The same in mode 1, which the Rust does not have.
    fn in_mode_1(mut self) -> Self {
        self.mode = 1;
        self.without_the_rust()
    }

    /// The same with a byte behind all texts that is no UTF-8, so that each text is tested for itself.
    fn before_a_stray(mut self) -> Self {
        self.layout.text.push(0xFF);
        self.without_the_rust()
    }

    fn without_the_rust(mut self) -> Self {
        self.document.xml.clear();
        self
    }

    pub fn lent(&self) -> Lent<'_> {
        Lent { mode: self.mode, ..compare::lent(&self.document) }
    }
}

/// Tables whose texts do not overlap, as those laid out from XML.
pub fn apart() -> Vec<Worst> {
    apart::all()
}

/// Tables whose texts overlap.
pub fn overlapping() -> Vec<Worst> {
    overlapping::all()
}
