//! The proved reader against the published Rust: settlements made up from seeds, laid out as tables,
//! read by both, and compared by what the readings show.

pub mod case;
pub mod generate;
pub mod layout;
pub mod library;
pub mod markup;
pub mod names;
pub mod print;
pub mod published;
pub mod random;
pub mod reading;
mod schema;
pub mod smallest;
pub mod tally;
pub mod tree;
mod values;

use generate::Document;
use library::Lent;

/// What is lent beside a document, in mode 0.
pub fn lent(d: &Document) -> Lent<'_> {
    Lent {
        currency: d.currency.as_deref().unwrap_or("").as_bytes(),
        identifier: d.identifier.as_deref().unwrap_or("").as_bytes(),
        rules: d.rules,
        mode: 0,
    }
}
