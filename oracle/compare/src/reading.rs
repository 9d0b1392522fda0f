//! A reading by what it shows: texts as bytes, absent apart from empty, no places. Both readers'
//! answers are brought to this form and compared in it.

/// One value of a reading.
#[derive(Clone, Debug, PartialEq, Eq, PartialOrd, Ord)]
pub enum Field {
    Absent,
    Text(Vec<u8>),
    /// An amount in hundredths, a date as CCYYMMDD, or BT-8.
    Number(i64),
    /// Unscaled number and scale.
    Percentage(i128, u32),
}

#[derive(Clone, Debug, PartialEq, Eq, PartialOrd, Ord)]
pub struct Entry {
    pub message: u32,
    pub path: String,
    /// With the group's index, as the Rust prints it.
    pub term: Option<String>,
    pub value: Field,
}

#[derive(Clone, Debug, PartialEq, Eq)]
pub struct Term {
    pub number: &'static str,
    pub content: Field,
    pub scheme: Field,
}

#[derive(Clone, Debug, PartialEq, Eq)]
pub struct Reading {
    /// Whether BG-10, 14, 16, 18 and 19 are present.
    pub groups: [bool; 5],
    /// All of them, absent ones too, ascending.
    pub terms: Vec<Term>,
    /// The rows of each kind 1 to 5.
    pub held: [Vec<Vec<Field>>; 5],
    /// The kinds of all rows in order of making; empty where that is not known.
    pub order: Vec<usize>,
    pub entries: Vec<Entry>,
    /// As the Rust prints them: parent, slash, name.
    pub unmapped: Vec<Vec<u8>>,
}

pub const GROUPS: [&str; 5] = ["BG-10", "BG-14", "BG-16", "BG-18", "BG-19"];

impl Field {
    pub fn text(s: impl AsRef<[u8]>) -> Self {
        Self::Text(s.as_ref().to_vec())
    }

    pub fn or_absent<T>(value: Option<T>, field: impl FnOnce(T) -> Self) -> Self {
        value.map_or(Self::Absent, field)
    }
}

/// The first thing in which two lists differ.
fn first<T: PartialEq + std::fmt::Debug>(what: &str, a: &[T], b: &[T]) -> Option<String> {
    let at = (0..a.len().max(b.len())).find(|i| a.get(*i) != b.get(*i))?;
    Some(format!("{what} {at}: {:?} against {:?}", a.get(at), b.get(at)))
}

impl Reading {
    /// The first difference from `other`, if there is one. The order of making is compared only
    /// where both know it.
    pub fn difference(&self, other: &Self) -> Option<String> {
        self.difference_but_entries(other).or_else(|| first("entry", &self.entries, &other.entries)).or_else(|| {
            let known = !self.order.is_empty() && !other.order.is_empty();
            first("order", &self.order, &other.order).filter(|_| known)
        })
    }

    /// The first difference that document 01's demand 3 rules out: terms, rows of each kind and
    /// unmapped names are equal, and the entries are, but for their order.
    pub fn difference_but_order(&self, other: &Self) -> Option<String> {
        let (mut a, mut b) = (self.entries.clone(), other.entries.clone());
        a.sort();
        b.sort();
        self.difference_but_entries(other).or_else(|| first("sorted entry", &a, &b))
    }

    fn difference_but_entries(&self, other: &Self) -> Option<String> {
        first("group", &self.groups, &other.groups)
            .or_else(|| first("term", &self.terms, &other.terms))
            .or_else(|| (0..5).find_map(|k| first(&format!("held {}", k + 1), &self.held[k], &other.held[k])))
            .or_else(|| first("unmapped", &self.unmapped, &other.unmapped))
    }
}
