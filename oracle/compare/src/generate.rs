//! Settlements made up from a seed: every child of the schema, sound and damaged, repeated, out of
//! order, beside strangers; small ones, and ones of 257 to 4,096 records.

use crate::markup;
use crate::random::Random;
use crate::schema::{Part, SETTLEMENT, STRANGERS, SUMMATION};
use crate::tree::Tree;
use crate::values;

pub const MOST_RECORDS: usize = 4096;

/// A settlement as XML, and what is lent beside it.
pub struct Document {
    pub xml: String,
    pub currency: Option<String>,
    pub identifier: Option<String>,
    pub rules: u32,
}

const IDENTIFIERS: &[&str] = &[
    "urn:cen.eu:en16931:2017",
    "urn:cen.eu:en16931:2017#conformant#urn:factur-x.eu:1p0:extended",
    "urn:cen.eu:en16931:2017:conformant:x",
    "#conformant#",
    ":conformant:",
    "#conformant:",
    ":conformant#",
    "conformant",
    "#Conformant#",
    "##conformant##conformant",
    "x",
];

/// The means of payment other than a transfer.
const OTHER_MEANS: &[&str] = &["ApplicableTradeSettlementFinancialCard", "PayerPartyDebtorFinancialAccount"];

/// The document of a seed. One in forty is large.
pub fn document(seed: u64) -> Document {
    let mut random = Random::new(seed);
    let size = match random.below(40) {
        0 => random.between(257, MOST_RECORDS),
        n if n < 8 => random.between(60, 256),
        _ => random.between(1, 60),
    };
    sized(&mut random, size)
}

/// A document of about `size` records, never more than 4,096.
pub fn sized(random: &mut Random, size: usize) -> Document {
    let damage = random.pick(&[0, 3, 10, 10, 30, 60]);
    let wide = if size > 256 && random.chance(40) { size } else { 0 };
    let transfers = random.chance(40);
    let mut maker = Maker { random, damage, wide, transfers };
    let settlement = maker.settlement(size);
    let lent = maker.random.chance(80);
    Document {
        xml: markup::write(&settlement, random),
        currency: lent.then(|| values::currency(random, 10)).filter(|c| !c.is_empty()),
        identifier: random.chance(80).then(|| random.pick(IDENTIFIERS).into()),
        rules: match random.below(4) {
            0 => 4095,
            1 => 0,
            _ => random.below(4096) as u32,
        },
    }
}

struct Maker<'r> {
    random: &'r mut Random,
    /// How many of a hundred values are damaged.
    damage: usize,
    /// About how many children a payment means or a summation gets in addition.
    wide: usize,
    /// Whether payment means hold accounts alone.
    transfers: bool,
}

impl Maker<'_> {
    fn settlement(&mut self, size: usize) -> Tree {
        let mut settlement = Tree::group("ApplicableHeaderTradeSettlement", Vec::new());
        let mut records = 1;
        let mut add = |child: Tree| {
            records += child.records();
            if records <= MOST_RECORDS {
                settlement.children.push(child);
            }
            records < size
        };
        if self.random.chance(20) {
            // one of each, in the order of the schema
            for (name, part) in SETTLEMENT {
                add(self.element(name, *part));
            }
        }
        let mut more = size > 1;
        while more {
            more = add(self.child(SETTLEMENT));
        }
        settlement
    }

    /// A child of a group: one of its own, or seldom a stranger.
    fn child(&mut self, of: &[(&'static str, Part)]) -> Tree {
        if self.random.chance(6) {
            return self.stranger();
        }
        let (name, part) = self.random.pick(of);
        self.element(name, part)
    }

    /// An element that does not belong there: known elsewhere, or nowhere.
    fn stranger(&mut self) -> Tree {
        let name = match self.random.below(4) {
            0 => self.random.pick(SETTLEMENT).0.into(),
            1 => self.random.pick(SUMMATION).0.into(),
            2 => format!("Stranger{}", self.random.below(1000)),
            _ => self.random.pick(STRANGERS).into(),
        };
        let children = (0..self.random.below(3)).map(|_| self.leaf("ID", values::text)).collect();
        Tree { name, children, ..self.leaf("", values::text) }
    }

    fn element(&mut self, name: &str, part: Part) -> Tree {
        match part {
            Part::Text => self.leaf(name, values::text),
            Part::Currency => self.leaf(name, values::currency),
            Part::Percent => self.leaf(name, values::percent),
            Part::Indicator => self.leaf(name, values::indicator),
            Part::PointCode => self.leaf(name, values::point_code),
            Part::TaxType => self.leaf(name, values::tax_type),
            Part::Category => self.leaf(name, values::category),
            Part::Identifier => self.identifier(name),
            Part::Amount => self.amount(name),
            Part::Date => self.date(name),
            Part::Group(parts) => self.group(name, parts),
        }
    }

    fn leaf(&mut self, name: &str, text: fn(&mut Random, usize) -> String) -> Tree {
        let text = text(self.random, self.damage);
        Tree::leaf(name, values::padded(self.random, text))
    }

    fn identifier(&mut self, name: &str) -> Tree {
        let mut tree = self.leaf(name, values::text);
        for attribute in ["schemeID", "listID"] {
            if self.random.chance(35) {
                let value = self.random.pick(&["0088", "0060", " 0088 ", "", "VA"]);
                tree = tree.with(attribute, value);
            }
        }
        self.random.shuffle(&mut tree.attributes);
        tree
    }

    fn amount(&mut self, name: &str) -> Tree {
        let mut tree = self.leaf(name, values::amount);
        if self.random.chance(if name == "TaxTotalAmount" { 80 } else { 25 }) {
            let currency = values::currency(self.random, self.damage);
            tree = tree.with("currencyID", &values::padded(self.random, currency));
        }
        if self.random.chance(3) {
            tree = tree.with("schemeID", "x");
        }
        tree
    }

    fn date(&mut self, name: &str) -> Tree {
        let right = if name == "TaxPointDate" { "DateString" } else { "DateTimeString" };
        let spellings: &[&str] = match self.random.below(8) {
            0 => &["DateString"],
            1 => &["DateTimeString"],
            2 => &["DateString", "DateTimeString"],
            3 => &["DateTimeString", "DateString", "DateTimeString"],
            4 if self.random.chance(self.damage) => &["Date"],
            5 if self.random.chance(self.damage) => &[],
            _ => &[right],
        };
        let children = spellings.iter().map(|spelling| self.date_string(spelling)).collect();
        Tree::group(name, children)
    }

    fn date_string(&mut self, name: &str) -> Tree {
        let tree = self.leaf(name, values::date);
        match self.random.below(10) {
            0 => tree,
            1 if self.random.chance(2 * self.damage) => {
                let format = self.random.pick(&["", "203", " 102", "102 ", "0102", "10"]);
                tree.with("format", format)
            }
            _ => tree.with("format", "102"),
        }
    }

    /// Most of its parts, some repeated, perhaps a stranger, perhaps out of order.
    fn group(&mut self, name: &str, parts: &'static [(&'static str, Part)]) -> Tree {
        let mut children = Vec::new();
        for (name, part) in parts {
            while self.random.chance(if children.is_empty() { 80 } else { 70 }) {
                children.push(self.element(name, *part));
                if !self.random.chance(12) {
                    break;
                }
            }
        }
        if self.wide > 0 && name.starts_with("SpecifiedTradeSettlement") {
            for _ in 0..self.random.below(self.wide) / 4 {
                children.push(self.child(parts));
            }
            self.wide = 0;
        }
        if self.random.chance(12) {
            children.push(self.stranger());
        }
        if self.transfers {
            children.retain(|c| !OTHER_MEANS.contains(&c.name.as_str()));
        }
        if self.random.chance(40) {
            self.random.shuffle(&mut children);
        }
        Tree::group(name, children)
    }
}
