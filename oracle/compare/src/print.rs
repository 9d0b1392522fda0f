//! The printed reading (document 01, "The printed reading").

use crate::reading::{Field, GROUPS, Reading};

pub fn printed(r: &Reading) -> Vec<u8> {
    let mut out = Vec::new();
    let held: usize = r.held.iter().map(Vec::len).sum();
    assert_eq!(held, r.order.len(), "the order of making is known");
    let counts = [held, r.entries.len(), r.unmapped.len()].map(|n| n.to_string());
    line(&mut out, "accepted", counts.map(String::into_bytes));
    for (group, _) in GROUPS.iter().zip(r.groups).filter(|(_, present)| *present) {
        line(&mut out, "group", [group.as_bytes().to_vec()]);
    }
    for term in r.terms.iter().filter(|t| t.content != Field::Absent) {
        let scheme = Some(shown(&term.scheme)).filter(|_| term.scheme != Field::Absent);
        line(&mut out, "term", [term.number.into(), shown(&term.content)].into_iter().chain(scheme));
    }
    let mut next = [0; 5];
    for kind in &r.order {
        let row = &r.held[kind - 1][next[kind - 1]];
        next[kind - 1] += 1;
        line(&mut out, "held", std::iter::once(kind.to_string().into_bytes()).chain(row.iter().map(shown)));
    }
    for e in &r.entries {
        let term = e.term.clone().unwrap_or("-".into());
        let fields = [e.message.to_string().into(), e.path.clone().into(), term.into(), shown(&e.value)];
        line(&mut out, "entry", fields);
    }
    for path in &r.unmapped {
        line(&mut out, "unmapped", [path.clone()]);
    }
    out
}

fn shown(field: &Field) -> Vec<u8> {
    match field {
        Field::Absent => b"-".to_vec(),
        Field::Text(t) => t.clone(),
        Field::Number(n) => n.to_string().into(),
        Field::Percentage(unscaled, scale) => format!("{unscaled}/{scale}").into(),
    }
}

/// Tabs between fields, bytes below 32 as a space.
fn line(out: &mut Vec<u8>, word: &str, fields: impl IntoIterator<Item = Vec<u8>>) {
    out.extend_from_slice(word.as_bytes());
    for field in fields {
        out.push(b'\t');
        out.extend(field.iter().map(|b| if *b < 32 { b' ' } else { *b }));
    }
    out.push(b'\n');
}
