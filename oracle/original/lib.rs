//! The published settlement reader behind a small public face. The modules are the published files,
//! whole or in part (build.sh says which); `Error` is a stand-in for the formats crate's own.
#![allow(dead_code, unused_imports)]

mod cii;
pub mod report;
mod required;
mod xml;

use en16931::invoice::Invoice;
use std::collections::BTreeSet;

pub use en16931::{self, invoice};
pub use roxmltree::Node;

/// The formats crate's error, as far as `xml.rs` names it.
#[derive(Debug)]
pub enum Error {
    Encoding { found: String },
    TooDeep { depth: usize, limit: usize },
    Xml { message: String, line: u32, column: u32 },
}

/// What `Reader::settlement` leaves: the invoice, its entries, and the unmapped paths.
pub type Outcome = (Invoice, Vec<report::Entry>, BTreeSet<String>);

/// The reading of the settlement `n`, with the invoice currency and the specification identifier.
pub fn settlement(n: Node<'_, '_>, currency: Option<String>, identifier: Option<String>) -> Outcome {
    cii::read::settlement_of(n, currency, identifier)
}

/// Local name of an element.
pub fn name<'i>(n: Node<'_, 'i>) -> &'i str {
    xml::name(n)
}

/// Direct element children.
pub fn kids<'a, 'i>(n: Node<'a, 'i>) -> impl Iterator<Item = Node<'a, 'i>> {
    xml::kids(n)
}

/// Direct text, joined; none where there is none.
pub fn raw_text(n: Node<'_, '_>) -> Option<String> {
    xml::raw_text(n)
}

/// The names from the document element down to `n`.
pub fn path_of(n: Node<'_, '_>) -> String {
    xml::path_of(n)
}
