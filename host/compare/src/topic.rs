use crate::run::{Cell, Outcome, Run};
use second::rules::Row;
use second::{Rules, RULES};

/// A part of the comparison, by its name.
pub type Part = (&'static str, fn(&mut Run) -> Outcome);

/// The calls of one subject.
pub struct Topic {
    /// The slow ones last: a wrong variant is compared only up to its first difference.
    pub parts: &'static [Part],
    /// What each call must have been seen to do, in groups.
    pub cells: &'static [(&'static str, &'static [&'static [Cell]])],
    /// Calls whose names begin so must have been compared so often.
    pub at_least: (&'static str, u64),
    /// Wrong variants of the second implementation; the comparison must report every one of them.
    pub variants: fn() -> Vec<Variant>,
    /// At least one variant must break each of these.
    pub rules_to_break: &'static [&'static str],
}

/// The rules with one operand changed.
pub struct Variant {
    pub name: String,
    /// The sentence of the rules that it breaks, as docs/TRACE.md numbers them.
    pub rule: &'static str,
    pub rules: Rules,
}

pub fn variant(name: impl Into<String>, rule: &'static str, change: impl FnOnce(&mut Rules)) -> Variant {
    let mut rules = RULES;
    change(&mut rules);
    Variant { name: name.into(), rule, rules }
}

/// A call, the sentence of its order, the order, and a row that never holds together with the one before it.
pub type Order = (&'static str, &'static str, fn(&mut Rules) -> &mut &'static [Row], Option<Row>);

/// Each row of each order left out, and each two neighbours exchanged.
pub fn order_variants(orders: &[Order]) -> Vec<Variant> {
    orders.iter().flat_map(changed_order).collect()
}

fn changed_order((call, rule, order, alone): &Order) -> Vec<Variant> {
    let rows = *order(&mut RULES.clone());
    let without = |k: usize| {
        let rest: Vec<Row> = rows.iter().copied().filter(|row| *row != rows[k]).collect();
        variant(format!("{call}-without-{:?}", rows[k]), rule, |r| *order(r) = rest.leak())
    };
    let exchanged = |k: usize| {
        let mut swapped = rows.to_vec();
        swapped.swap(k - 1, k);
        let name = format!("{call}-{:?}-before-{:?}", rows[k], rows[k - 1]);
        variant(name, rule, |r| *order(r) = swapped.leak())
    };
    let neighbours = (1..rows.len()).filter(|k| Some(rows[*k]) != *alone);
    (0..rows.len()).map(without).chain(neighbours.map(exchanged)).collect()
}

/// Each refusal under another number.
pub fn number_variants(rows: &[(Row, &'static str, u32)]) -> Vec<Variant> {
    let renumbered = |&(row, rule, number): &(Row, &'static str, u32)| {
        variant(format!("number-{number}-for-{row:?}"), rule, |r| r.refusals.renumber(row, number))
    };
    rows.iter().map(renumbered).collect()
}
