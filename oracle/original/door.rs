
// ---- appended by build.sh to read.rs: the door to its private reader ----

/// `Reader::settlement` on a blank invoice that carries only its specification identifier (BT-24).
pub(crate) fn settlement_of(
    n: Node<'_, '_>,
    currency: Option<String>,
    identifier: Option<String>,
) -> (Invoice, Vec<Entry>, BTreeSet<String>) {
    let mut inv = Invoice::default();
    inv.specification_id = identifier.clone();
    let mut r = Reader { currency, bt24: identifier, ..Reader::default() };
    r.settlement(&mut inv, n);
    (inv, r.entries, r.unmapped)
}
