/// A partition by its number, or a free run, and its blocks.
#[derive(Clone, Copy, Debug)]
pub struct Item {
    pub number: Option<u64>,
    pub blocks: u64,
}

/// One line: each item to scale and at least one column wide, so that the line is longer than `width` where many are
/// too short for a column. A partition is its number, if that fits, and `=`; a free run is dots.
pub fn bar(items: &[Item], width: usize) -> String {
    let lengths: Vec<u64> = items.iter().map(|item| item.blocks).collect();
    let drawn = |(item, columns): (&Item, usize)| match item.number.map(|number| number.to_string()) {
        None => ".".repeat(columns),
        Some(number) if number.len() <= columns => format!("{number:=<columns$}"),
        Some(_) => "#".repeat(columns),
    };
    items.iter().zip(columns(&lengths, width)).map(drawn).collect()
}

/// How many columns each length gets: what is too short for its share gets one, the others share the rest, or half
/// of the width where less is left.
fn columns(lengths: &[u64], width: usize) -> Vec<usize> {
    let mut least = vec![false; lengths.len()];
    loop {
        let taken = least.iter().filter(|least| **least).count();
        let share = width.saturating_sub(taken).max(width / 2) as u128;
        let others = || lengths.iter().zip(&least).filter(|(_, least)| !**least);
        let total: u128 = others().map(|(length, _)| u128::from(*length)).sum();
        let short: Vec<bool> = lengths
            .iter()
            .zip(&least)
            .map(|(length, least)| *least || u128::from(*length) * share < total)
            .collect();
        if short == least {
            return shared(lengths, &least, share, total);
        }
        least = short;
    }
}

/// Shares in whole columns; those left over go to the largest remainders.
fn shared(lengths: &[u64], least: &[bool], share: u128, total: u128) -> Vec<usize> {
    let exact = |place: usize| u128::from(lengths[place]) * share;
    let of = |place: usize| if least[place] { 1 } else { (exact(place) / total.max(1)) as usize };
    let mut columns: Vec<usize> = (0..lengths.len()).map(of).collect();
    let mut others: Vec<usize> = (0..lengths.len()).filter(|place| !least[*place]).collect();
    let given: usize = others.iter().map(|place| columns[*place]).sum();
    others.sort_by_key(|place| std::cmp::Reverse(exact(*place) % total.max(1)));
    for place in others.iter().take(share as usize - given.min(share as usize)) {
        columns[*place] += 1;
    }
    columns
}

#[cfg(test)]
mod tests {
    use super::*;

    fn drawn(items: &[(u64, u64)], width: usize) -> String {
        let item = |(number, blocks): &(u64, u64)| Item {
            number: (*number > 0).then_some(*number),
            blocks: *blocks,
        };
        bar(&items.iter().map(item).collect::<Vec<_>>(), width)
    }

    #[test]
    fn to_scale() {
        assert_eq!(drawn(&[(1, 10), (2, 20), (0, 10)], 16), "1===2=======....");
        assert_eq!(drawn(&[(0, 933)], 10), "..........");
        assert_eq!(drawn(&[(128, 1)], 64), format!("128{}", "=".repeat(61)));
    }

    #[test]
    fn every_item_has_a_column() {
        assert_eq!(drawn(&[(1, 1), (0, 1 << 32), (2, 1)], 8), "1......2");
        assert_eq!(drawn(&[(12, 1), (13, 1), (0, 1000)], 8), "##......");
        assert_eq!(drawn(&[(1, 5), (0, 5), (2, 5)], 2), "1.2");
        assert_eq!(drawn(&[(1, 5), (0, 1)], 0), "1.");
        assert_eq!(drawn(&[(1, 1), (2, 1), (3, 1), (4, 1), (5, 1), (0, 4000)], 6), "12345...");
        assert_eq!(drawn(&[], 64), "");
    }

    #[test]
    fn the_line_is_as_wide_as_asked() {
        for width in 3..200 {
            for lengths in [[1, 1, 1], [1, 2, 1 << 32], [u64::MAX, 7, u64::MAX], [3, 1000, 500]] {
                let columns = columns(&lengths, width);
                assert_eq!(columns.iter().sum::<usize>(), width, "{lengths:?}");
                assert!(columns.iter().all(|columns| *columns > 0), "{lengths:?} {columns:?}");
                let longer = |a: usize, b: usize| lengths[a] <= lengths[b] || columns[a] + 1 >= columns[b];
                assert!((0..3).all(|a| (0..3).all(|b| longer(a, b))), "{lengths:?} {columns:?}");
            }
        }
    }
}
