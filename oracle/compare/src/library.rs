//! The proved reader's answer through its C function, brought to the common form.

use crate::layout::Layout;
use crate::names::{PARENTS, PATHS, TERMS};
use crate::reading::{Entry, Field, Reading, Term};

unsafe extern "C" {
    fn rulzhamm_read(
        table: *const u32,
        table_len: usize,
        text: *const u8,
        text_len: usize,
        currency: *const u8,
        currency_len: usize,
        identifier: *const u8,
        identifier_len: usize,
        rules: u32,
        mode: u32,
        held: *mut i64,
        held_len: usize,
        entries: *mut i64,
        entries_len: usize,
        unmapped: *mut i64,
        unmapped_len: usize,
        answer: *mut i64,
    );
}

/// Numbers of a held row, an entry, an unmapped row, and the answer.
const HELD: usize = 14;
const ENTRY: usize = 6;
const UNMAPPED: usize = 3;
const ANSWER: usize = 65;
/// The room that refusal 10 asks for each record: a held row, four entries, an unmapped row.
pub const HELD_ROOM: usize = HELD;
pub const ENTRY_ROOM: usize = 4 * ENTRY;
pub const UNMAPPED_ROOM: usize = UNMAPPED;

/// What a list holds before a call; no row has such a number.
const OLD: i64 = i64::MIN + 7;

/// What is lent beside the layout.
#[derive(Clone, Copy)]
pub struct Lent<'a> {
    pub currency: &'a [u8],
    pub identifier: &'a [u8],
    pub rules: u32,
    pub mode: u32,
}

/// The lists that a call writes to.
pub struct Lists {
    pub held: Vec<i64>,
    pub entries: Vec<i64>,
    pub unmapped: Vec<i64>,
    pub answer: [i64; ANSWER],
}

/// A refusal: its number and record.
pub type Refusal = (i64, i64);

impl Lists {
    /// Room for a table of so many records, no more than refusal 10 asks for.
    pub fn of_records(records: usize) -> Self {
        Self {
            held: vec![OLD; HELD_ROOM * records],
            entries: vec![OLD; ENTRY_ROOM * records],
            unmapped: vec![OLD; UNMAPPED_ROOM * records],
            answer: [OLD; ANSWER],
        }
    }
}

/// The call alone.
pub fn call(layout: &Layout, lent: Lent<'_>, lists: &mut Lists) {
    // SAFETY: every pointer is that of a slice of the length beside it, and no two overlap.
    unsafe {
        rulzhamm_read(
            layout.table.as_ptr(),
            layout.table.len(),
            layout.text.as_ptr(),
            layout.text.len(),
            lent.currency.as_ptr(),
            lent.currency.len(),
            lent.identifier.as_ptr(),
            lent.identifier.len(),
            lent.rules,
            lent.mode,
            lists.held.as_mut_ptr(),
            lists.held.len(),
            lists.entries.as_mut_ptr(),
            lists.entries.len(),
            lists.unmapped.as_mut_ptr(),
            lists.unmapped.len(),
            lists.answer.as_mut_ptr(),
        );
    }
}

/// A call and its reading, or the refusal. Panics where the answer is not one that document 01 allows.
pub fn reading(layout: &Layout, lent: Lent<'_>) -> Result<Reading, Refusal> {
    let mut lists = Lists::of_records(layout.table.len() / 6);
    call(layout, lent, &mut lists);
    read_answer(layout, &lists)
}

/// The answer and lists after a call.
pub fn read_answer(layout: &Layout, lists: &Lists) -> Result<Reading, Refusal> {
    let text = layout.text.as_slice();
    let mut answer = Cells { text, cells: &lists.answer };
    let refusal = (answer.next(), answer.next());
    let counts = [answer.next(), answer.next(), answer.next()].map(|n| n as usize);
    let (groups, terms) = answer_terms(&mut answer);
    if refusal.0 != 0 {
        assert_eq!(counts, [0; 3], "a refusal counts no rows");
        assert!(groups == [false; 5] && terms.iter().all(is_blank), "the terms of a refusal are blank");
    }
    let mut held: [Vec<Vec<Field>>; 5] = Default::default();
    let mut order = Vec::new();
    for row in rows(&lists.held, HELD, counts[0]) {
        let (kind, fields) = held_row(Cells { text, cells: row });
        held[kind - 1].push(fields);
        order.push(kind);
    }
    let entries = rows(&lists.entries, ENTRY, counts[1]).map(|row| entry(Cells { text, cells: row })).collect();
    let unmapped = rows(&lists.unmapped, UNMAPPED, counts[2]).map(|row| unmapped(Cells { text, cells: row })).collect();
    if refusal.0 != 0 {
        return Err(refusal);
    }
    Ok(Reading { groups, terms, held, order, entries, unmapped })
}

/// The first `count` rows; what lies behind them must be as it was.
fn rows(list: &[i64], width: usize, count: usize) -> impl Iterator<Item = &[i64]> {
    let (written, rest) = list.split_at(width * count);
    assert!(rest.iter().all(|n| *n == OLD), "numbers behind the rows changed");
    written.chunks_exact(width)
}

fn answer_terms(a: &mut Cells<'_>) -> ([bool; 5], Vec<Term>) {
    let mut groups = [false; 5];
    let mut terms = Vec::new();
    let mut term = |number, content, scheme| terms.push(Term { number, content, scheme });
    term("BT-5", a.text(), Field::Absent);
    term("BT-6", a.text(), Field::Absent);
    term("BT-7", a.date(), Field::Absent);
    term("BT-8", a.date(), Field::Absent);
    term("BT-9", a.date(), Field::Absent);
    term("BT-19", a.text(), Field::Absent);
    term("BT-20", a.text(), Field::Absent);
    groups[0] = a.flag();
    term("BT-59", a.text(), Field::Absent);
    term("BT-60", a.text(), a.text());
    term("BT-61", a.text(), a.text());
    groups[1] = a.flag();
    term("BT-73", a.date(), Field::Absent);
    term("BT-74", a.date(), Field::Absent);
    groups[2] = a.flag();
    term("BT-81", a.text(), Field::Absent);
    term("BT-82", a.text(), Field::Absent);
    term("BT-83", a.text(), Field::Absent);
    groups[3] = a.flag();
    term("BT-87", a.text(), Field::Absent);
    term("BT-88", a.text(), Field::Absent);
    groups[4] = a.flag();
    let account = a.text();
    term("BT-89", a.text(), Field::Absent);
    term("BT-90", a.text(), Field::Absent);
    term("BT-91", account, Field::Absent);
    term("BT-106", a.amount(), Field::Absent);
    term("BT-107", a.optional_amount(), Field::Absent);
    term("BT-108", a.optional_amount(), Field::Absent);
    term("BT-109", a.amount(), Field::Absent);
    term("BT-110", a.optional_amount(), Field::Absent);
    term("BT-111", a.optional_amount(), Field::Absent);
    term("BT-112", a.amount(), Field::Absent);
    term("BT-113", a.optional_amount(), Field::Absent);
    term("BT-114", a.optional_amount(), Field::Absent);
    term("BT-115", a.amount(), Field::Absent);
    assert!(a.cells.is_empty(), "an answer of {ANSWER} numbers");
    (groups, terms)
}

/// Whether a term is as in a blank invoice: absent, or the 0 of a required amount.
fn is_blank(term: &Term) -> bool {
    let required = ["BT-106", "BT-109", "BT-112", "BT-115"].contains(&term.number);
    term.content == if required { Field::Number(0) } else { Field::Absent } && term.scheme == Field::Absent
}

/// The kind and the fields of a held row; unused numbers must be 0.
fn held_row(mut row: Cells<'_>) -> (usize, Vec<Field>) {
    let kind = row.next() as usize;
    let fields = match kind {
        1 => vec![row.text(), row.text(), row.text()],
        2 => vec![row.amount(), row.amount(), row.text(), row.percentage(), row.text(), row.text()],
        3 | 4 => vec![
            row.amount(),
            row.optional_amount(),
            row.percentage(),
            row.text(),
            row.percentage(),
            row.text(),
            row.text(),
        ],
        5 => vec![row.text(), row.date()],
        _ => panic!("a row of kind {kind}"),
    };
    assert!(row.cells.iter().all(|n| *n == 0), "unused numbers of a row of kind {kind}");
    (kind, fields)
}

fn entry(mut row: Cells<'_>) -> Entry {
    let [message, path, term, index] = [row.next(), row.next(), row.next(), row.next()];
    let name = TERMS[term as usize];
    assert_eq!(index >= 0, name.contains("[i]"), "an index where the term has a group's");
    Entry {
        message: message as u32,
        path: PATHS[path as usize].into(),
        term: (term != 0).then(|| name.replace("[i]", &format!("[{index}]"))),
        value: row.text(),
    }
}

fn unmapped(mut row: Cells<'_>) -> Vec<u8> {
    let parent = PARENTS[row.next() as usize];
    let Field::Text(name) = row.text() else { panic!("an unmapped element without a name") };
    [parent.as_bytes(), b"/", &name].concat()
}

/// Numbers of a row, taken from the front.
struct Cells<'a> {
    text: &'a [u8],
    cells: &'a [i64],
}

impl Cells<'_> {
    fn next(&mut self) -> i64 {
        let (first, rest) = self.cells.split_first().expect("one more number");
        self.cells = rest;
        *first
    }

    /// Absent is -1, 0 and empty 0, 0; every other place lies inside the text.
    fn text(&mut self) -> Field {
        match (self.next(), self.next()) {
            (-1, 0) => Field::Absent,
            (0, 0) => Field::text(""),
            (start, len) => {
                assert!(start >= 0 && len > 0, "the place {start}, {len}");
                Field::text(&self.text[start as usize..][..len as usize])
            }
        }
    }

    fn amount(&mut self) -> Field {
        Field::Number(self.next())
    }

    fn date(&mut self) -> Field {
        let number = self.next();
        Field::or_absent((number != -1).then_some(number), Field::Number)
    }

    fn flag(&mut self) -> bool {
        let flag = self.next();
        assert!(flag == 0 || flag == 1, "the flag {flag}");
        flag == 1
    }

    fn optional_amount(&mut self) -> Field {
        let present = self.flag();
        let number = self.next();
        assert!(present || number == 0, "the absent amount {number}");
        Field::or_absent(present.then_some(number), Field::Number)
    }

    fn percentage(&mut self) -> Field {
        match (self.next(), self.next()) {
            (0, -1) => Field::Absent,
            (unscaled, scale) => Field::Percentage(unscaled.into(), scale.try_into().expect("a scale")),
        }
    }
}
