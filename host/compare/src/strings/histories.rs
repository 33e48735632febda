//! Lists of calls on one disk that follow an accepted layout string.

use crate::gpt::call::Call;
use crate::gpt::damage;
use crate::gpt::disk::Disk;
use crate::gpt::histories::{claim, claims, format, near_multiple, next_call, one_call, zero_bits, Named};
use crate::run::{Cell, Difference, Outcome, Run};
use second::Ledger;
use testkit::disk::SHAPES;
use testkit::strings::{LayoutString, Wanted};

const HISTORIES: usize = 24;
const CALLS: usize = 24;
const DAMAGED_HISTORIES: usize = 16;

/// What a string has.
pub const ON_A_LIST: &str = "a string after other calls";

/// b9: calls after an accepted string, strings and formatting among them; what they granted and gave back is what the entries
/// hold, no block lies in two partitions, no two of them carry one name, room is refused exactly where no multiple has enough
/// free blocks from it on, and no partition offends the present rule.
pub fn sums(run: &mut Run) -> Outcome {
    for _ in 0..HISTORIES {
        let mut disk = any_disk(run);
        let mut ledger = Ledger::new(run.rules);
        let mut named = Named { earlier_alone: run.random.below(2) == 0, present: false };
        while !build(run, &mut disk, &mut ledger, &mut named)? {}
        for _ in 0..CALLS {
            match run.random.below(16) {
                0..=1 => {
                    build(run, &mut disk, &mut ledger, &mut named)?;
                }
                2 => {
                    format(run, &mut disk, &mut ledger)?;
                    named.present = false;
                }
                _ => one_call(run, &mut disk, &mut ledger, &mut named)?,
            }
            claims(run, &mut disk, &ledger)?;
            zero_bits(run, &mut disk, &named)?;
        }
    }
    Ok(())
}

/// Calls after an accepted string, with damage between them, and strings among them.
pub fn damaged(run: &mut Run) -> Outcome {
    for _ in 0..DAMAGED_HISTORIES {
        let mut disk = any_disk(run);
        let mut ledger = Ledger::new(run.rules);
        let mut named = Named { earlier_alone: false, present: false };
        while !build(run, &mut disk, &mut ledger, &mut named)? {}
        for _ in 0..CALLS {
            if run.random.below(4) == 0 {
                damage::any(&mut disk, &mut run.random);
            }
            let read = disk.call(run, &Call::Read)?;
            let call = next_call(&mut disk, read, &mut run.random);
            disk.call_after(run, read, &call)?;
            if run.random.below(10) == 0 {
                build(run, &mut disk, &mut ledger, &mut named)?;
            }
        }
    }
    Ok(())
}

fn any_disk(run: &mut Run) -> Disk {
    let shape = run.random.pick(&SHAPES);
    let n = match run.random.below(3) {
        0 => near_multiple(shape, &mut run.random),
        _ => shape.least_blocks() + 20 + run.random.number_below(400),
    };
    Disk::random(shape, n, &mut run.random)
}

/// Whether the string was accepted. The sizes are those of the text; that of size 0 is told by where the others stand.
fn build(run: &mut Run, disk: &mut Disk, ledger: &mut Ledger, named: &mut Named) -> Result<bool, Difference> {
    let alignment = run.random.pick(&[1, 1, 8, 2048]);
    let partitions = 1 + run.random.below(6);
    let wanted = Wanted { shape: disk.shape, n: disk.n, alignment, partitions };
    let string = LayoutString::random(wanted, &mut run.random);
    let call = Call::Build { alignment, text: string.text(&mut run.random).into_bytes() };
    let answer = disk.call(run, &call)?.number;
    let expected = string.places(wanted);
    claim(answer == expected.clone().err().unwrap_or(0), || format!("{answer} for {call}"))?;
    run.reach(
        call.name(disk.block),
        if answer == 0 { Cell::On(ON_A_LIST) } else { Cell::By(answer, ON_A_LIST) },
    );
    let Ok(places) = expected else {
        ledger.refused();
        return Ok(false);
    };
    let sizes = string.partitions.iter().zip(places).map(|(partition, (_, reached))| match partition.size {
        0 => (reached, true),
        bytes => (bytes / disk.block, false),
    });
    ledger.built(&sizes.collect::<Vec<_>>());
    named.present = string.partitions.iter().any(|partition| partition.bootable);
    Ok(true)
}
