//! What a run has met, so that its report says what was compared.

use crate::names::{PATHS, TERMS};
use crate::reading::{GROUPS, Reading};
use std::collections::BTreeMap;

#[derive(Default)]
pub struct Tally {
    /// How often each thing was met, by its name.
    met: BTreeMap<String, usize>,
}

impl Tally {
    /// Notes all that a reading shows; true where something was not met before.
    pub fn note(&mut self, r: &Reading) -> bool {
        let before = self.met.len();
        for e in &r.entries {
            self.count(format!("message {}", e.message));
            let path = PATHS.iter().position(|p| *p == e.path).expect("a path of docs/PATHS.md");
            self.count(format!("path {path}"));
            if let Some(term) = &e.term {
                self.count(format!("term {}", term_number(term)));
            }
        }
        for (kind, rows) in r.held.iter().enumerate() {
            rows.iter().for_each(|_| self.count(format!("row {}", kind + 1)));
        }
        for (group, _) in GROUPS.iter().zip(r.groups).filter(|(_, present)| *present) {
            self.count(format!("group {group}"));
        }
        r.unmapped.iter().for_each(|_| self.count("unmapped".into()));
        self.met.len() > before
    }

    fn count(&mut self, name: String) {
        *self.met.entry(name).or_default() += 1;
    }

    /// How often a thing was met.
    pub fn of(&self, name: &str) -> usize {
        self.met.get(name).copied().unwrap_or(0)
    }

    /// Everything a reading can show, by name: messages (7 apart, which the Rust does not know),
    /// paths, terms, rows, groups, unmapped elements.
    pub fn everything() -> Vec<String> {
        let messages = (1..=26).filter(|m| *m != 7).map(|m| format!("message {m}"));
        let paths = (1..PATHS.len()).map(|p| format!("path {p}"));
        let terms = (1..TERMS.len()).map(|t| format!("term {t}"));
        let rows = (1..=5).map(|k| format!("row {k}"));
        let groups = GROUPS.iter().map(|g| format!("group {g}"));
        messages.chain(paths).chain(terms).chain(rows).chain(groups).chain(["unmapped".into()]).collect()
    }

    /// What was never met.
    pub fn missing(&self) -> Vec<String> {
        Self::everything().into_iter().filter(|name| self.of(name) == 0).collect()
    }
}

/// The number of a term as the Rust prints it, whatever its group's index.
fn term_number(term: &str) -> usize {
    let plain = match (term.find('['), term.find(']')) {
        (Some(open), Some(close)) => format!("{}[i]{}", &term[..open], &term[close + 1..]),
        _ => term.into(),
    };
    TERMS.iter().position(|t| *t == plain).expect("a term of docs/TERMS.md")
}
