//! The smallest settlement that still shows a difference, for who looks into it.

use crate::tree::Tree;

/// `tree` without what `differs` does not need: children, attributes and texts are left out one by
/// one as long as the difference stays.
pub fn smallest(mut tree: Tree, differs: &dyn Fn(&Tree) -> bool) -> Tree {
    while let Some(smaller) = smaller(&tree).into_iter().find(|t| differs(t)) {
        tree = smaller;
    }
    tree
}

/// The trees with one thing less.
fn smaller(tree: &Tree) -> Vec<Tree> {
    let mut out = Vec::new();
    for i in 0..tree.children.len() {
        out.push(Tree { children: without(&tree.children, i), ..tree.clone() });
    }
    for i in 0..tree.attributes.len() {
        out.push(Tree { attributes: without(&tree.attributes, i), ..tree.clone() });
    }
    if !tree.text.is_empty() {
        out.push(Tree { text: String::new(), ..tree.clone() });
    }
    for (i, child) in tree.children.iter().enumerate() {
        for child in smaller(child) {
            let mut whole = tree.clone();
            whole.children[i] = child;
            out.push(whole);
        }
    }
    out
}

fn without<T: Clone>(items: &[T], i: usize) -> Vec<T> {
    [&items[..i], &items[i + 1..]].concat()
}
