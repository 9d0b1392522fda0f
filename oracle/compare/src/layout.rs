//! From a tree to a table of records and its text (document 01, "From the tree to the table").

use crate::generate::MOST_RECORDS;
use crate::random::Random;
use crate::tree::Tree;
use std::collections::HashMap;

pub struct Layout {
    /// Six numbers a record.
    pub table: Vec<u32>,
    pub text: Vec<u8>,
}

/// A record before its texts have places.
struct Record<'t> {
    kind: u32,
    parent: usize,
    name: &'t str,
    text: &'t str,
}

/// What can come next: the first of some siblings, or an attribute.
enum Next<'t> {
    Sibling(usize, &'t [Tree]),
    Attribute(usize, &'t str, &'t str),
}

/// The tree that an accepted table describes.
pub fn tree(layout: &Layout) -> Tree {
    let text = |start: u32, len: u32| {
        let bytes = &layout.text[start as usize..][..len as usize];
        std::str::from_utf8(bytes).expect("UTF-8").to_owned()
    };
    let records: Vec<_> = layout.table.chunks_exact(6).collect();
    let mut trees: Vec<Tree> = records.iter().map(|r| Tree::leaf(&text(r[2], r[3]), text(r[4], r[5]))).collect();
    while trees.len() > 1 {
        let tree = trees.pop().expect("a later record");
        let [kind, parent, ..] = records[trees.len()] else { unreachable!("six numbers") };
        let parent = &mut trees[*parent as usize];
        if *kind == 1 {
            parent.children.insert(0, tree);
        } else {
            // of two equal names the earlier counts
            parent.attributes.retain(|(name, _)| *name != tree.name);
            parent.attributes.insert(0, (tree.name, tree.text));
        }
    }
    trees.remove(0)
}

/// Records in document order, an element's attributes right after it, each text once in that order.
pub fn plain(tree: &Tree) -> Layout {
    let mut records = Vec::new();
    in_document_order(&mut records, 0, tree);
    let order = (0..2 * records.len()).collect();
    place(&records, order, None)
}

/// A layout of any kind: records or texts shuffled or not, texts shared or not.
pub fn any(tree: &Tree, random: &mut Random) -> Layout {
    let mut records = Vec::new();
    if random.chance(50) {
        in_document_order(&mut records, 0, tree);
    } else {
        shuffled(&mut records, tree, random);
    }
    let mut order: Vec<usize> = (0..2 * records.len()).collect();
    if random.chance(50) {
        random.shuffle(&mut order);
    }
    place(&records, order, Some(random))
}

fn in_document_order<'t>(records: &mut Vec<Record<'t>>, parent: usize, tree: &'t Tree) {
    let own = records.len();
    records.push(Record { kind: 1, parent, name: &tree.name, text: &tree.text });
    for (name, text) in &tree.attributes {
        records.push(Record { kind: 2, parent: own, name, text });
    }
    for child in &tree.children {
        in_document_order(records, own, child);
    }
}

/// Records in any order that keeps parents before children and siblings in order. An attribute stands
/// anywhere after its element, and some are followed by another of the same name, which counts nothing.
fn shuffled<'t>(records: &mut Vec<Record<'t>>, tree: &'t Tree, random: &mut Random) {
    let mut room = MOST_RECORDS.saturating_sub(tree.records());
    let mut ready = vec![Next::Sibling(0, std::slice::from_ref(tree))];
    while !ready.is_empty() {
        let own = records.len();
        match ready.swap_remove(random.below(ready.len())) {
            Next::Sibling(parent, siblings) => {
                let (tree, later) = siblings.split_first().expect("a sibling");
                records.push(Record { kind: 1, parent, name: &tree.name, text: &tree.text });
                ready.extend(tree.attributes.iter().map(|(name, text)| Next::Attribute(own, name, text)));
                for (parent, siblings) in [(parent, later), (own, &tree.children)] {
                    if !siblings.is_empty() {
                        ready.push(Next::Sibling(parent, siblings));
                    }
                }
            }
            Next::Attribute(parent, name, text) => {
                records.push(Record { kind: 2, parent, name, text });
                if room > 0 && random.chance(10) {
                    room -= 1;
                    ready.push(Next::Attribute(parent, name, "USD"));
                }
            }
        }
    }
}

/// Gives each name and text a place, in the order named: piece 2i is the name of record i, 2i + 1 its
/// text. With random numbers pieces may share bytes, and others may stand between them.
fn place(records: &[Record<'_>], order: Vec<usize>, mut random: Option<&mut Random>) -> Layout {
    let (shared, gaps) = match &mut random {
        Some(r) => (r.chance(60), r.chance(40)),
        None => (false, false),
    };
    let mut text = Vec::new();
    let mut known = HashMap::new();
    let mut places = vec![0; 2 * records.len()];
    for piece in order {
        let record = &records[piece / 2];
        let bytes = if piece % 2 == 0 { record.name } else { record.text }.as_bytes();
        places[piece] = match known.get(bytes) {
            Some(at) if shared => *at,
            _ if shared => join(&mut text, bytes),
            _ => {
                text.extend_from_slice(bytes);
                text.len() - bytes.len()
            }
        };
        known.insert(bytes, places[piece]);
        if let Some(r) = random.as_deref_mut().filter(|_| gaps) {
            text.extend_from_slice(r.pick(&[&b""[..], b"", b" ", b"\xff", b"\xc3", b"x", b"\0"]));
        }
    }
    let mut table = Vec::with_capacity(6 * records.len());
    for (i, r) in records.iter().enumerate() {
        table.extend([r.kind, r.parent as u32]);
        for (piece, at) in [(r.name, places[2 * i]), (r.text, places[2 * i + 1])] {
            let at = match random.as_deref_mut() {
                // an empty piece may stand anywhere in the text
                Some(random) if piece.is_empty() => random.below(text.len() + 1),
                _ => at,
            };
            table.extend([at as u32, piece.len() as u32]);
        }
    }
    Layout { table, text }
}

/// Where `piece` stands in `text`: inside it, or over its end, or behind it.
fn join(text: &mut Vec<u8>, piece: &[u8]) -> usize {
    let near = text.len().saturating_sub(2000);
    if let Some(at) = text[near..].windows(piece.len().max(1)).position(|w| w == piece) {
        return near + at;
    }
    let overlap = (0..=piece.len().min(text.len())).rev().find(|n| text.ends_with(&piece[..*n])).unwrap_or(0);
    text.extend_from_slice(&piece[overlap..]);
    text.len() - piece.len()
}
