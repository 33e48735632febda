//! One layout string on a disk that held anything, and what it came to.

use crate::gpt::call::Call;
use crate::gpt::disk::Disk;
use crate::run::{shown, Cell, Difference, Outcome, Run};
use testkit::disk::Shape;

/// A disk of random bytes on which strings are tried.
pub struct Probe {
    pub shape: Shape,
    disk: Disk,
}

impl Probe {
    pub fn new(run: &mut Run, shape: Shape, n: u64) -> Probe {
        Probe { shape, disk: Disk::random(shape, n, &mut run.random) }
    }

    /// The same bytes as a disk of other blocks.
    pub fn of_blocks(&self, n: u64) -> Probe {
        Probe { shape: self.shape, disk: Disk { n, ..self.disk.clone() } }
    }

    /// Answers the number.
    pub fn build(&self, run: &mut Run, alignment: u64, text: impl AsRef<[u8]>) -> Result<u32, Difference> {
        let text = text.as_ref().to_vec();
        Ok(self.disk.clone().call(run, &Call::Build { alignment, text })?.number)
    }

    /// The same, counted under what the string has.
    pub fn meeting(
        &self,
        run: &mut Run,
        alignment: u64,
        text: impl AsRef<[u8]>,
        what: &'static str,
    ) -> Outcome {
        self.disk.meeting(run, &Call::Build { alignment, text: text.as_ref().to_vec() }, what)
    }

    /// Both must give the number that the rules give.
    pub fn demand(&self, run: &mut Run, alignment: u64, text: impl AsRef<[u8]>, number: u32) -> Outcome {
        let answer = self.build(run, alignment, text.as_ref())?;
        demand(text.as_ref(), answer, number)
    }
}

pub fn demand(text: &[u8], answer: u32, number: u32) -> Outcome {
    if answer == number {
        return Ok(());
    }
    Err(Difference::new(format!("gpt_build({}): both answer {answer}, not {number}", shown(text))))
}

/// Counts a way under the call's name.
pub fn reach(run: &mut Run, block: u64, cell: Cell) {
    run.reach(if block == 4096 { "gpt_build at 4096" } else { "gpt_build" }, cell);
}
