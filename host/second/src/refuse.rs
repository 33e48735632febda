use crate::rules::{Row, Rules};

/// R2: the number of the first row of `order` that holds.
pub fn first_refusal(rules: &Rules, order: &[Row], holds: impl Fn(Row) -> bool) -> Option<u32> {
    first_row(order, holds).map(|row| number(rules, row))
}

pub fn first_row(order: &[Row], holds: impl Fn(Row) -> bool) -> Option<Row> {
    order.iter().copied().find(|row| holds(*row))
}

pub fn number(rules: &Rules, row: Row) -> u32 {
    let numbers = rules.refusals.numbers;
    numbers.iter().find(|(of, _)| *of == row).map_or(0, |(_, number)| *number)
}

/// R1: what becomes of an output buffer when the call is refused.
pub fn leave(rules: &Rules, buffer: &mut [u8]) {
    for byte in buffer.iter_mut().take(rules.refusals.zeroes) {
        *byte = 0;
    }
}

/// R1: what becomes of a number answer when the call is refused.
pub fn leave_answer(rules: &Rules, answer: &mut u64) {
    if rules.refusals.zeroes_answers {
        *answer = 0;
    }
}
