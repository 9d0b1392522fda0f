//! A tree written as XML, with its many spellings: prefixes, entities, CDATA, comments that split a
//! text, white space between elements, attributes in a namespace.

use crate::random::Random;
use crate::tree::Tree;

/// How often each spelling is used, in a hundred.
struct Style {
    prefixed: bool,
    wrapped: bool,
    white: bool,
    comments: usize,
    cdata: usize,
    references: usize,
    foreign: usize,
}

struct Writer<'r> {
    out: String,
    random: &'r mut Random,
    style: Style,
}

/// The settlement as a document of its own, or inside an invoice.
pub fn write(tree: &Tree, random: &mut Random) -> String {
    let style = Style {
        prefixed: random.chance(50),
        wrapped: random.chance(25),
        white: random.chance(40),
        comments: random.pick(&[0, 0, 5, 20]),
        cdata: random.pick(&[0, 0, 5, 30]),
        references: random.pick(&[0, 2, 20]),
        foreign: random.pick(&[0, 3]),
    };
    let mut w = Writer { out: String::new(), random, style };
    if w.style.wrapped {
        let invoice = "<rsm:CrossIndustryInvoice xmlns:rsm=\"urn:rsm\" xmlns:ram=\"urn:ram\" xmlns:x=\"urn:x\">";
        w.out += invoice;
        w.out += "<rsm:SupplyChainTradeTransaction>";
        w.element(tree, "");
        w.out += "</rsm:SupplyChainTradeTransaction></rsm:CrossIndustryInvoice>";
    } else {
        w.element(tree, " xmlns:ram=\"urn:ram\" xmlns:x=\"urn:x\"");
    }
    w.out
}

/// The settlement in the plainest spelling.
pub fn plain(tree: &Tree) -> String {
    let style =
        Style { prefixed: false, wrapped: false, white: false, comments: 0, cdata: 0, references: 0, foreign: 0 };
    let mut w = Writer { out: String::new(), random: &mut Random::new(0), style };
    w.element(tree, "");
    w.out
}

impl Writer<'_> {
    fn element(&mut self, tree: &Tree, declarations: &str) {
        let prefix = if self.style.prefixed { "ram:" } else { "" };
        self.out += &format!("<{prefix}{}{declarations}", tree.name);
        if self.random.chance(self.style.foreign) {
            self.out += " x:currencyID=\"USD\" x:schemeID=\"9\" x:format=\"1\"";
        }
        for (name, value) in &tree.attributes {
            self.out += &format!(" {name}=\"");
            self.characters(value);
            self.out.push('"');
        }
        if tree.text.is_empty() && tree.children.is_empty() && !self.random.chance(30) {
            self.out += "/>";
            return;
        }
        self.out.push('>');
        self.content(tree);
        self.out += &format!("</{prefix}{}>", tree.name);
    }

    /// The text in one piece before the children or in two around them.
    fn content(&mut self, tree: &Tree) {
        let half = if self.random.chance(self.style.comments) { tree.text.len() / 2 } else { tree.text.len() };
        let (before, after) = tree.text.split_at(tree.text.floor_char_boundary(half));
        self.text(before);
        if !after.is_empty() {
            self.out += self.random.pick(&["<!-- note -->", "<?note?>", "<!---->"]);
        }
        for child in &tree.children {
            self.space();
            self.element(child, "");
        }
        self.text(after);
        if !tree.children.is_empty() {
            self.space();
        }
    }

    fn space(&mut self) {
        if self.style.white {
            self.out += "\n  ";
        }
        if self.random.chance(self.style.comments / 4) {
            self.out += "<!-- <ID>0</ID> -->";
        }
    }

    fn text(&mut self, text: &str) {
        if self.random.chance(self.style.cdata) && !text.contains("]]>") {
            self.out += &format!("<![CDATA[{text}]]>");
        } else {
            self.characters(text);
        }
    }

    fn characters(&mut self, text: &str) {
        for c in text.chars() {
            match c {
                '<' => self.out += "&lt;",
                '&' => self.out += "&amp;",
                '>' => self.out += "&gt;",
                '"' => self.out += "&quot;",
                '\r' => self.out += "&#13;",
                c if self.random.chance(self.style.references) => self.out += &format!("&#x{:X};", c as u32),
                c => self.out.push(c),
            }
        }
    }
}
