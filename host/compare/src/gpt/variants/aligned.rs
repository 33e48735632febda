//! Starts at multiples: which alignments are taken, what a multiple is, and the room from it on.

use crate::topic::{variant, Variant};
use second::rules::{AlignmentSlip, ALIGNMENT};

/// What is wrong under one alignment, and the sentence that it breaks.
const SLIPS: [(AlignmentSlip, &str); 13] = [
    (AlignmentSlip::NextMultiple, "e1"),
    (AlignmentSlip::RoundedDown, "e1"),
    (AlignmentSlip::RoundedIn32Bits, "e1"),
    (AlignmentSlip::FromFirstUsable, "e1"),
    (AlignmentSlip::BlocksOf(512), "e1"),
    (AlignmentSlip::BlocksOf(4096), "e1"),
    (AlignmentSlip::FirstRunAlone, "e1"),
    (AlignmentSlip::LaterRunsAlone, "e1"),
    (AlignmentSlip::OneMore, "e4"),
    (AlignmentSlip::OneLess, "e4"),
    (AlignmentSlip::WholeRun, "e4"),
    (AlignmentSlip::LeastOfRun, "e4"),
    (AlignmentSlip::RowByRuns, "e4"),
];

/// Alignments that are refused, some with the low bits of one that is taken.
const OTHERS: [u64; 9] = [0, 2, 4, 16, 512, 1024, 2049, 4096, u64::MAX];

/// Each alignment that is taken, and another number whose multiples start instead.
const PASSED_ON: [(u64, u64); 8] =
    [(1, 2), (8, 1), (8, 4), (8, 16), (2048, 1), (2048, 8), (2048, 1024), (2048, 4096)];

pub fn variants() -> Vec<Variant> {
    let slips = SLIPS.into_iter().flat_map(|(slip, rule)| {
        let at = |at| variant(format!("{slip:?}-at-{at}"), rule, |r| r.gpt.alignment.slip = Some((at, slip)));
        [8, 2048].map(at)
    });
    let bits = variant("alignment-of-32-bits", "e5", |r| r.gpt.alignment.judged_bits = 0xFFFF_FFFF);
    let sums = variant("room-in-sums-by-runs", "e4", |r| r.gpt.ledger.room_by_multiples = false);
    let refused = ALIGNMENT.taken.iter().map(|(taken, _)| refused(*taken));
    let taken = OTHERS.map(taken).into_iter().chain(PASSED_ON.map(passed_on));
    slips.chain([bits, sums]).chain(refused).chain(taken).collect()
}

fn taken(other: u64) -> Variant {
    let taken = [ALIGNMENT.taken, &[(other, other.max(1))]].concat();
    variant(format!("alignment-{other}-taken"), "e5", |r| r.gpt.alignment.taken = taken.leak())
}

fn refused(alignment: u64) -> Variant {
    let rest: Vec<_> = ALIGNMENT.taken.iter().copied().filter(|(taken, _)| *taken != alignment).collect();
    variant(format!("alignment-{alignment}-refused"), "e5", |r| r.gpt.alignment.taken = rest.leak())
}

fn passed_on((alignment, as_if): (u64, u64)) -> Variant {
    let mut taken = ALIGNMENT.taken.to_vec();
    taken.iter_mut().filter(|pair| pair.0 == alignment).for_each(|pair| pair.1 = as_if);
    variant(format!("alignment-{alignment}-as-{as_if}"), "e2", |r| r.gpt.alignment.taken = taken.leak())
}
