//! Attributes and the numbers that name a rule, drawn so that the edges of both rules are met often.

use testkit::random::Random;

/// Bits at an edge of what a rule wants zero.
pub const EDGES: [u32; 7] = [0, 1, 2, 3, 47, 48, 63];

/// The number that names the present rule, and some of the others, all of which name the earlier one.
pub const PRESENT: u64 = 0;
pub const EARLIER: [u64; 6] = [1, 2, 1 << 16, 1 << 32, 1 << 63, u64::MAX];

/// The bits that are free under the rule of this number.
pub fn free(rule: u64) -> u64 {
    match rule {
        PRESENT => 0xFFFF_0000_0000_0007,
        _ => 0xFFFF_0000_0000_0001,
    }
}

/// Either rule as often as the other one.
pub fn rule(random: &mut Random) -> u64 {
    match random.below(2) {
        0 => PRESENT,
        _ => random.pick(&EARLIER),
    }
}

/// None, all or some of the bits that are free.
pub fn passing(rule: u64, random: &mut Random) -> u64 {
    free(rule) & random.number() & random.pick(&[0, u64::MAX]) | random.pick(&[0, 0, free(rule)])
}

/// The same and a bit that the rule wants zero, at an edge most often.
pub fn offending(rule: u64, random: &mut Random) -> u64 {
    let any = 3 + random.below(45) as u32;
    let bit = match rule {
        PRESENT => random.pick(&[3, 47, any]),
        _ => random.pick(&[1, 2, 3, 47, any]),
    };
    passing(rule, random) | 1 << bit
}

/// Those that pass or offend under some rule, one bit, some bits at edges, or any.
pub fn any(random: &mut Random) -> u64 {
    let rule = rule(random);
    match random.below(7) {
        0 => passing(rule, random),
        1 => offending(rule, random),
        2 => 1 << random.below(64),
        3..=4 => EDGES.iter().fold(0, |bits, bit| bits | (random.below(2) as u64) << bit),
        5 => u64::MAX,
        _ => random.number(),
    }
}

/// For an add by this rule: passing most often.
pub fn given(rule: u64, random: &mut Random) -> u64 {
    match random.below(4) {
        0 => any(random),
        _ => passing(rule, random),
    }
}
