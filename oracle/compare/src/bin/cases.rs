//! `cases FOLDER` writes a sample of made-up settlements as stored cases, FOLDER/stdin, with the
//! published Rust's printed answers, FOLDER/stdout. It fails where the sample leaves out a message,
//! path, term, kind of row or group that the Rust can show. An answer is the lines of the printed reading
//! and an empty line.

use compare::generate::{self, Document};
use compare::print::printed;
use compare::random::Random;
use compare::tally::Tally;
use compare::tree::Tree;
use compare::{case, layout, lent, published};

/// About how many bytes both files may have together.
const BYTES: usize = 430_000;
const MOST_RECORDS: usize = 200;

fn main() {
    let folder = std::env::args().nth(1).expect("usage: cases FOLDER");
    let (mut cases, mut answers) = (String::new(), Vec::new());
    let mut tally = Tally::default();
    let mut count = 0;
    for seed in 1.. {
        let mut random = Random::new(seed);
        let size = random.pick(&[3, 6, 6, 10, 10, 10, 15, 15, 20, 30]);
        let d = generate::sized(&mut random, size);
        let xml = published::parse(&d.xml);
        let node = published::find(&xml);
        let tree = Tree::of(node);
        let layout = layout::any(&tree, &mut random);
        if layout.table.len() > 6 * MOST_RECORDS || !lent_fits(&d) {
            continue;
        }
        let mut reading = published::reading(node, &d);
        reading.order = published::order_of_making(node, &d);
        let new = tally.note(&reading);
        // at first only what shows something new, so that little is enough for all of it
        if !new && !tally.missing().is_empty() {
            continue;
        }
        count += 1;
        cases += &case::written(lent(&d), &layout);
        cases.push('\n');
        answers.extend(printed(&reading));
        answers.push(b'\n');
        if cases.len() + answers.len() > BYTES {
            break;
        }
    }
    assert!(tally.missing().is_empty(), "the sample leaves out {:?}", tally.missing());
    std::fs::write(format!("{folder}/stdin"), cases).expect("stdin");
    std::fs::write(format!("{folder}/stdout"), answers).expect("stdout");
    println!("{count} cases, which show all {} things", Tally::everything().len());
}

/// Whether what is lent can stand in the line as it is: visible, and not taken for none or for the text.
fn lent_fits(d: &Document) -> bool {
    [&d.currency, &d.identifier]
        .into_iter()
        .flatten()
        .all(|lent| lent != "-" && !lent.starts_with(':') && lent.bytes().all(|b| b.is_ascii_graphic()))
}
