//! Each way in which a layout string is refused, alone and with each other way. What two ways together must give is known
//! from the rules' order, and both sides are held to it.

use super::draft::{apart, together, Draft};
use super::probe::{demand, reach};
use super::ways::{Plant, Way, WAYS};
use crate::gpt::call::Call;
use crate::run::{Cell, Difference, Outcome, Run};
use testkit::disk::SHAPES;

/// Each way alone, and none.
pub fn each(run: &mut Run) -> Outcome {
    for shape in SHAPES {
        let good = apart(run, shape, &[]);
        judged(run, good)?;
        for way in WAYS {
            let draft = apart(run, shape, &[way]);
            let answer = judged(run, draft)?;
            reach(run, shape.block, Cell::By(answer, way.name));
        }
    }
    Ok(())
}

/// Each two ways in one partition; with another alignment, in the first one.
pub fn each_two_in_one(run: &mut Run) -> Outcome {
    for shape in SHAPES {
        for (k, one) in WAYS.iter().enumerate() {
            for other in WAYS[..k].iter().filter(|other| one.number != other.number) {
                let ways = [other, one];
                let is_call = |way: &&Way| matches!(way.plant, Plant::Alignment(_));
                let is_field = |way: &&Way| matches!(way.plant, Plant::Fields(_));
                let of_partitions = ways.iter().all(|way| way.is_of_partition());
                let of_first = ways.iter().any(is_call) && ways.iter().any(is_field);
                if !of_partitions && !of_first {
                    continue;
                }
                if let Some(draft) = together(run, shape, &ways, of_first) {
                    judged(run, draft)?;
                }
            }
        }
    }
    Ok(())
}

/// Each two ways that one call can have, each of them first, those of partitions apart; one block size for each two.
pub fn each_two(run: &mut Run) -> Outcome {
    for (k, one) in WAYS.iter().enumerate() {
        for (j, other) in WAYS.iter().enumerate().filter(|(_, other)| beside(one, other)) {
            let draft = apart(run, SHAPES[(k + j) % 2], &[one, other]);
            judged(run, draft)?;
        }
    }
    Ok(())
}

/// Whether one call can have both, so that their order shows.
fn beside(one: &Way, other: &Way) -> bool {
    let is_whole = |way: &Way| matches!(way.plant, Plant::Whole(_));
    let is_of_call = |way: &Way| {
        matches!(way.plant, Plant::Block(_) | Plant::Blocks(_) | Plant::Alignment(_) | Plant::Length(..))
    };
    let apart = one.place().is_none() || one.place() != other.place();
    one.number != other.number
        && apart
        && (!is_whole(one) || is_of_call(other))
        && (!is_whole(other) || is_of_call(one))
}

fn judged(run: &mut Run, Draft { mut disk, call, number }: Draft) -> Result<u32, Difference> {
    let answer = disk.call(run, &call)?.number;
    let text: &[u8] = if let Call::Build { text, .. } = &call { text } else { &[] };
    demand(text, answer, number)?;
    Ok(answer)
}
