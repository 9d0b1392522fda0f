//! A settlement as a tree: names, attributes, joined text, children. What a table describes.

use original::Node;

#[derive(Clone, Debug, Default, PartialEq, Eq)]
pub struct Tree {
    pub name: String,
    pub attributes: Vec<(String, String)>,
    /// All direct text, joined.
    pub text: String,
    pub children: Vec<Tree>,
}

/// The two pairs of children whose order has a meaning (document 01, demand 3).
const ORDERED: [[&str; 2]; 3] = [
    ["InvoiceCurrencyCode", "SpecifiedTradeSettlementHeaderMonetarySummation"],
    ["TaxCurrencyCode", "SpecifiedTradeSettlementHeaderMonetarySummation"],
    ["SpecifiedTradeAllowanceCharge", "SpecifiedLogisticsServiceCharge"],
];

impl Tree {
    pub fn leaf(name: &str, text: impl Into<String>) -> Self {
        Self { name: name.into(), text: text.into(), ..Self::default() }
    }

    pub fn group(name: &str, children: Vec<Tree>) -> Self {
        Self { name: name.into(), children, ..Self::default() }
    }

    pub fn with(mut self, attribute: &str, value: &str) -> Self {
        self.attributes.push((attribute.into(), value.into()));
        self
    }

    /// The tree of a parsed element: local names, attributes without a namespace.
    pub fn of(n: Node<'_, '_>) -> Self {
        Self {
            name: original::name(n).into(),
            attributes: n
                .attributes()
                .filter(|a| a.namespace().is_none())
                .map(|a| (a.name().into(), a.value().into()))
                .collect(),
            text: original::raw_text(n).unwrap_or_default(),
            children: original::kids(n).map(Self::of).collect(),
        }
    }

    /// How many records a table of this tree has.
    pub fn records(&self) -> usize {
        1 + self.attributes.len() + self.children.iter().map(Self::records).sum::<usize>()
    }

    /// Whether the children `i` and `i + 1` may change places without a change of meaning: their
    /// names differ, and they are none of the pairs left out.
    pub fn may_exchange(&self, i: usize) -> bool {
        let (a, b) = (self.children[i].name.as_str(), self.children[i + 1].name.as_str());
        a != b && !ORDERED.contains(&[a, b]) && !ORDERED.contains(&[b, a])
    }

    /// The tree with each white space of its texts made one that XML Schema knows, a tab, line feed,
    /// carriage return or space: these modes 0 and 1 trim alike.
    pub fn schema_spaced(&self) -> Self {
        let spaced = |c: char| if c.is_whitespace() { ['\t', '\n', '\r', ' '][c as usize % 4] } else { c };
        Self {
            name: self.name.clone(),
            attributes: self.attributes.clone(),
            text: self.text.chars().map(spaced).collect(),
            children: self.children.iter().map(Self::schema_spaced).collect(),
        }
    }

    /// The tree after the children `i` and `i + 1` changed places.
    pub fn exchanged(&self, i: usize) -> Self {
        let mut tree = self.clone();
        tree.children.swap(i, i + 1);
        tree
    }
}
