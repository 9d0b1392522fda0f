//! `reading SETTLEMENT.xml < INPUT` prints the published Rust's reading of a settlement, perhaps inside
//! a whole invoice, as document 01's "The printed reading" asks. INPUT is the line of mode (0), rules,
//! currency or `-`, identifier or `-`.

use compare::generate::Document;
use compare::print::printed;
use compare::published;
use std::io::Write;

fn main() {
    let path = std::env::args().nth(1).expect("usage: reading SETTLEMENT.xml < INPUT");
    let input = std::io::read_to_string(std::io::stdin()).expect("an input line");
    let fields: Vec<&str> = input.trim_end_matches('\n').split(' ').collect();
    let [mode, rules, currency, identifier] = fields[..] else { panic!("an input line of four fields") };
    assert_eq!(mode, "0", "the Rust knows mode 0 only");
    let lent = |text: &str| (text != "-").then(|| text.to_owned());
    let d = Document {
        xml: std::fs::read_to_string(path).expect("the settlement, in UTF-8"),
        currency: lent(currency),
        identifier: lent(identifier),
        rules: rules.parse().expect("a rules number"),
    };
    let xml = published::parse(&d.xml);
    let node = published::find(&xml);
    let mut reading = published::reading(node, &d);
    reading.order = published::order_of_making(node, &d);
    std::io::stdout().write_all(&printed(&reading)).expect("standard output");
}
