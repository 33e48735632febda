//! Where the partitions of a layout string stand, by a list of the blocks that are taken.

use crate::disk::Shape;
use crate::random::Random;

/// The free runs of a disk, each by its first block and the block behind its last one, in ascending order.
#[derive(Clone, Debug)]
pub struct Free {
    runs: Vec<(u64, u64)>,
}

impl Free {
    /// All usable blocks.
    pub fn new(shape: Shape, n: u64) -> Free {
        Free { runs: vec![(shape.first_usable, n + 1 - shape.first_usable)] }
    }

    pub fn is_free(&self, block: u64) -> bool {
        self.run_of(block).is_some()
    }

    /// The run that the block lies in.
    fn run_of(&self, block: u64) -> Option<(u64, u64)> {
        self.runs.iter().copied().find(|(first, end)| (*first..*end).contains(&block))
    }

    /// The free blocks from each multiple on that is the lowest of its run.
    fn at_multiples(&self, alignment: u64) -> Vec<(u64, u64)> {
        let multiple = |(first, end): &(u64, u64)| (first.next_multiple_of(alignment), *end);
        self.runs.iter().map(multiple).filter(|(first, end)| first < end).collect()
    }

    /// Takes so many blocks from the start on, or where an add would; no blocks stand for all to the run's end.
    /// Answers the first block and how many.
    pub fn take(&mut self, alignment: u64, start: Option<u64>, blocks: u64) -> Option<(u64, u64)> {
        let from = match start {
            Some(start) => self.run_of(start).map(|(_, end)| (start, end)).into_iter().collect(),
            None => self.at_multiples(alignment),
        };
        let (first, end) = from.into_iter().find(|(first, end)| end - first >= blocks.max(1))?;
        let end = if blocks == 0 { end } else { first + blocks };
        let rest = |run: (u64, u64)| [(run.0, run.1.min(first)), (run.0.max(end), run.1)];
        self.runs = self.runs.iter().flat_map(|run| rest(*run)).filter(|(one, other)| one < other).collect();
        Some((first, end - first))
    }

    /// Start and size of a partition, in a free run most often; the size is 0 in the last partition at times.
    pub fn drawn(&self, alignment: u64, is_last: bool, random: &mut Random) -> (Option<u64>, u64) {
        let Some((first, end)) = self.runs.get(random.below(self.runs.len().max(1))).copied() else {
            return (None, 1);
        };
        let room = end - first;
        let inside = first + random.number_below(room);
        let start = match random.below(40) {
            0..=4 => Some(first),
            5..=9 => Some(inside),
            10 => Some(random.pick(&[first.saturating_sub(1), end, end - 1])),
            _ => None,
        };
        let multiple = first.next_multiple_of(alignment);
        let most = end.saturating_sub(start.unwrap_or(multiple));
        let blocks = match random.below(40) {
            0..=11 if is_last => 0,
            0 => most,
            1 => most.saturating_add(1),
            2..=4 => 1 + random.number_below(most.max(1)),
            _ => 1 + random.number_below((most / 8).max(1)),
        };
        (start, if blocks == 0 && !is_last { 1 } else { blocks })
    }
}

#[cfg(test)]
mod tests {
    use super::*;

    #[test]
    fn blocks_are_taken_once() {
        let mut free = Free::new(Shape::of(512), 200);
        assert_eq!(free.take(1, Some(100), 5), Some((100, 5)));
        assert_eq!(free.take(8, None, 60), Some((40, 60)));
        assert_eq!(free.take(8, None, 61), None);
        assert_eq!(free.take(1, Some(104), 1), None);
        assert_eq!(free.take(1, Some(105), 0), Some((105, 62)));
        assert_eq!(free.take(1, None, 0), Some((34, 6)));
        assert_eq!(free.take(1, None, 0), None);
        assert!(free.runs.is_empty());
    }
}
