//! Texts for the generator: amounts, percentages, dates, codes and free texts, sound or damaged.

use crate::random::Random;
use original::en16931::codes::generated::CURRENCY_CODES;

/// White space of Unicode, and characters beside it that are none.
const WHITE: &[&str] = &[
    " ", "\t", "\n", "\r", "\u{85}", "\u{A0}", "\u{1680}", "\u{2000}", "\u{2005}", "\u{200A}", "\u{2028}",
    "\u{2029}", "\u{202F}", "\u{205F}", "\u{3000}",
];
const NOT_WHITE: &[&str] = &["\u{200B}", "\u{FEFF}", "\u{180E}", "\u{2060}", "_"];

const CURRENCIES: &[&str] = &["EUR", "EUR", "EUR", "USD", "CHF", "GBP", "XXX", "ZWL", "AED", "HRK"];
const NO_CURRENCIES: &[&str] = &["", " ", "eur", "Eur", "EURO", "EU", "ZZZ", "ZWG", "E UR", "AAA", "\u{20AC}"];

const AMOUNTS: &[&str] = &[
    "0", "0.00", "-0", "+5", "-0.5", ".5", "5.", "-.5", "007.10", "000000000000000000000000000001.00",
    "92233720368547758.07", "-92233720368547758.08", "+92233720368547758.07", "0.0", "1.1",
];
const NO_AMOUNTS: &[&str] = &[
    "1.000", "0.001", "99999999999999999999.123", "92233720368547758.08", "-92233720368547758.09",
    "184467440737095516.15", "184467440737095516.16", "18446744073709551616",
];
const NO_NUMBERS: &[&str] = &[
    "", ".", "+", "-", "-.", "1e3", "1_000", "1,00", "--1", "+-1", "1.2.3", "1 000", "\u{663}", "12a", "a12",
    "1-", "1.-", "0x10", "NaN", "1.\u{A0}0",
];

const PERCENTS: &[&str] = &[
    "19", "19.00", "7.5", "0", "0.0", "-0", "-0.0", "+7", ".5", "5.", "-.25", "000000000000000019",
    "0.00000000000000000", "999999999999999999", "-999999999999999999", ".999999999999999999",
    "1.00000000000000000", "100",
];

const DATES: &[&str] = &["20240229", "00000229", "99991231", "00000101", "19991231", "20000229", "20240430"];
const NO_DATES: &[&str] = &[
    "", "2024022", "202402290", "2024-02-29", "20240230", "19000229", "20230229", "20240431", "20241301",
    "20240001", "20240100", "20240132", "99999999", "00000000", "2024 229", "éééé", "２０２", "+2024022",
];

const TEXTS: &[&str] = &[
    "DE02120300000000202051", "COBADEFFXXX", "Müller & Söhne <GmbH>", "-", "58", "RF18539007547034", "日本",
    "a\tb\nc", "]]>", "'quoted\"", "\u{10FFFF}", "#SKONTO#TAGE=7#PROZENT=2.00#\n", "x", "30",
];

const POINT_CODES: &[&str] = &["5", "29", "72"];
const NO_POINT_CODES: &[&str] = &["", "3", "35", "432", "05", "7 2", "5.", "729"];

fn sound_or(random: &mut Random, damage: usize, sound: &[&str], damaged: &[&str]) -> String {
    let from = if random.chance(damage) { damaged } else { sound };
    random.pick(from).into()
}

/// `text` with white space around it, now and then; seldom with what only looks like it.
pub fn padded(random: &mut Random, text: String) -> String {
    let mut out = text;
    if random.chance(15) {
        for _ in 0..random.between(1, 3) {
            let from = if random.chance(8) { NOT_WHITE } else { WHITE };
            let space = random.pick(from);
            out = if random.chance(50) { format!("{space}{out}") } else { format!("{out}{space}") };
        }
    }
    out
}

/// A few characters out of `alphabet`.
fn scrawl(random: &mut Random, alphabet: &[u8], most: usize) -> String {
    (0..random.between(0, most)).map(|_| char::from(random.pick(alphabet))).collect()
}

pub fn currency(random: &mut Random, damage: usize) -> String {
    if random.chance(5) {
        return random.pick(CURRENCY_CODES).into();
    }
    if random.chance(damage / 3) {
        return scrawl(random, b"ABCDEFGHIJKLMNOPQRSTUVWXYZ", 4);
    }
    sound_or(random, damage, CURRENCIES, NO_CURRENCIES)
}

pub fn amount(random: &mut Random, damage: usize) -> String {
    if random.chance(damage / 3) {
        return scrawl(random, b"0123456789.+- ", 8);
    }
    if random.chance(damage) || random.chance(15) {
        let damaged = if random.chance(50) { NO_AMOUNTS } else { NO_NUMBERS };
        return sound_or(random, damage, AMOUNTS, damaged);
    }
    let sign = random.pick(&["", "", "", "-", "+"]);
    format!("{sign}{}.{:02}", random.below(100_000), random.below(100))
}

/// A percentage of at most 18 digits, or none: what has more is read by the Rust alone.
pub fn percent(random: &mut Random, damage: usize) -> String {
    if random.chance(damage / 3) {
        return scrawl(random, b"0123456789.+-e", 8);
    }
    if random.chance(30) {
        return format!("{}.{}", random.below(100), random.below(1_000_000));
    }
    sound_or(random, damage, PERCENTS, NO_NUMBERS)
}

pub fn date(random: &mut Random, damage: usize) -> String {
    if random.chance(damage / 3) {
        return scrawl(random, b"0123456789", 9);
    }
    if random.chance(40) {
        return format!("{:04}{:02}{:02}", random.between(1990, 2030), random.between(1, 12), random.between(1, 31));
    }
    sound_or(random, damage, DATES, NO_DATES)
}

pub fn indicator(random: &mut Random, damage: usize) -> String {
    sound_or(random, damage, &["true", "false", "1", "0"], &["", "TRUE", "yes", "01", "truefalse", "2"])
}

pub fn point_code(random: &mut Random, damage: usize) -> String {
    sound_or(random, damage, POINT_CODES, NO_POINT_CODES)
}

pub fn tax_type(random: &mut Random, damage: usize) -> String {
    sound_or(random, damage, &["VAT", "VAT", "vat", "Vat"], &["", "GST", "VA", "VATS", "V\u{0391}T", "\u{FF36}AT"])
}

pub fn category(random: &mut Random, damage: usize) -> String {
    sound_or(random, damage, &["S", "Z", "E", "AE", "K"], &["", " ", "s", "standard rate"])
}

pub fn text(random: &mut Random, damage: usize) -> String {
    if random.chance(damage / 2) {
        return random.pick(&["", " ", "\u{A0}\u{2003}", "\n\t "]).into();
    }
    if random.chance(3) {
        return "long text ".repeat(random.between(10, 60));
    }
    random.pick(TEXTS).into()
}
