//! Where labels stand that are wanted at places too near to each other.

/// For places in order, the nearest ones (by the sum of squares) that are at least `apart` from each other, keep their
/// order and lie within the bounds, where those have room for them.
pub fn spread(wanted: &[f64], apart: f64, (low, high): (f64, f64)) -> Vec<f64> {
    // Neighbours that would be too near stand together, around the mean of what they want.
    let mut groups: Vec<(f64, usize)> = Vec::new();
    let place = |sum: f64, count: usize| {
        let length = (count - 1) as f64 * apart;
        (sum / count as f64).min(high - length).max(low)
    };
    for want in wanted {
        // The sum of where each of a group wants the group's first one to be.
        let mut group = (*want, 1);
        while let Some(&(sum, count)) = groups.last() {
            if place(sum, count) + count as f64 * apart <= place(group.0, group.1) {
                break;
            }
            groups.pop();
            group = (sum + group.0 - (count * group.1) as f64 * apart, count + group.1);
        }
        groups.push(group);
    }
    let each = |(sum, count): &(f64, usize)| {
        let first = place(*sum, *count);
        (0..*count).map(move |k| first + k as f64 * apart).collect::<Vec<_>>()
    };
    groups.iter().flat_map(each).collect()
}

#[cfg(test)]
mod tests {
    use super::spread;

    #[test]
    fn what_has_room_stays() {
        assert_eq!(spread(&[10.0, 50.0, 90.0], 10.0, (0.0, 100.0)), [10.0, 50.0, 90.0]);
        assert_eq!(spread(&[], 10.0, (0.0, 100.0)), [] as [f64; 0]);
    }

    #[test]
    fn neighbours_make_room() {
        assert_eq!(spread(&[50.0, 50.0], 10.0, (0.0, 100.0)), [45.0, 55.0]);
        assert_eq!(spread(&[0.0, 1.0, 2.0], 10.0, (0.0, 100.0)), [0.0, 10.0, 20.0]);
        assert_eq!(spread(&[99.0, 100.0], 10.0, (0.0, 100.0)), [90.0, 100.0]);
        assert_eq!(
            spread(&[40.0, 49.0, 51.0, 80.0], 10.0, (0.0, 100.0)),
            [36.666666666666664, 46.666666666666664, 56.666666666666664, 80.0]
        );
    }

    #[test]
    fn all_are_apart_and_in_order() {
        let mut number = 7_u64;
        for round in 1..200 {
            let mut wanted: Vec<f64> = (0..round % 60)
                .map(|_| {
                    number = number
                        .wrapping_mul(6_364_136_223_846_793_005)
                        .wrapping_add(1_442_695_040_888_963_407);
                    (number >> 33) as f64 % 1000.0
                })
                .collect();
            wanted.sort_by(f64::total_cmp);
            let placed = spread(&wanted, 16.0, (0.0, 1000.0));
            assert_eq!(placed.len(), wanted.len());
            assert!(placed.windows(2).all(|two| two[1] - two[0] >= 15.999), "{placed:?}");
            assert!(placed.iter().all(|y| (-0.001..=1000.001).contains(y)), "{placed:?}");
        }
    }
}
