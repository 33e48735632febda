/// Bytes `offset` to `offset + size`.
#[derive(Clone, Copy, Debug, PartialEq, Eq)]
pub struct Span {
    pub offset: u64,
    pub size: u64,
}

impl Span {
    pub fn end(self) -> u64 {
        self.offset + self.size
    }
}

/// A line of the tree: an area by its place in the list, or a gap.
#[derive(Clone, Copy, Debug, PartialEq, Eq)]
pub struct Row {
    pub area: Option<usize>,
    /// The innermost area around it; none for the image itself.
    pub parent: Option<usize>,
    pub depth: usize,
    pub span: Span,
}

/// Areas, any two of which are apart, equal or nested, in the order of their positions, each after the one that
/// holds it, and the gaps that no area covers: in the image, and in areas that hold others. Of equal areas the
/// earlier one holds the later one.
pub fn tree(areas: &[Span], image: u64) -> Vec<Row> {
    let mut order: Vec<usize> = (0..areas.len()).collect();
    order.sort_by_key(|place| (areas[*place].offset, std::cmp::Reverse(areas[*place].size)));
    let mut rows = Vec::new();
    // Open areas, outermost first, each with the end of what it was seen to hold.
    let mut open: Vec<(Option<usize>, Span, Option<u64>)> =
        vec![(None, Span { offset: 0, size: image }, Some(0))];
    for place in order {
        let span = areas[place];
        while open.len() > 1 && open[open.len() - 1].1.end() <= span.offset {
            close(&mut open, &mut rows);
        }
        let depth = open.len() - 1;
        let (parent, around, covered) = open.last_mut().expect("the image");
        gap(covered.unwrap_or(around.offset), span.offset, *parent, depth, &mut rows);
        *covered = Some(span.end());
        rows.push(Row { area: Some(place), parent: *parent, depth, span });
        open.push((Some(place), span, None));
    }
    while !open.is_empty() {
        close(&mut open, &mut rows);
    }
    rows
}

/// Leaves the innermost open area; what follows its last inner area is a gap.
fn close(open: &mut Vec<(Option<usize>, Span, Option<u64>)>, rows: &mut Vec<Row>) {
    if let Some((area, span, Some(covered))) = open.pop() {
        gap(covered, span.end(), area, open.len(), rows);
    }
}

fn gap(start: u64, end: u64, parent: Option<usize>, depth: usize, rows: &mut Vec<Row>) {
    if start < end {
        rows.push(Row { area: None, parent, depth, span: Span { offset: start, size: end - start } });
    }
}

#[cfg(test)]
mod tests {
    use super::*;

    fn drawn(areas: &[(u64, u64)], image: u64) -> Vec<String> {
        let spans: Vec<Span> =
            areas.iter().map(|(offset, size)| Span { offset: *offset, size: *size }).collect();
        let line = |row: Row| {
            let name = row.area.map_or("gap".to_string(), |place| place.to_string());
            format!("{:>depth$}{name} {} {}", "", row.span.offset, row.span.size, depth = row.depth)
        };
        tree(&spans, image).into_iter().map(line).collect()
    }

    #[test]
    fn nesting_and_gaps() {
        let areas = [(60, 40), (0, 50), (10, 5), (20, 30), (20, 10)];
        let expected = [
            "1 0 50",
            " gap 0 10",
            " 2 10 5",
            " gap 15 5",
            " 3 20 30",
            "  4 20 10",
            "  gap 30 20",
            "gap 50 10",
            "0 60 40",
        ];
        assert_eq!(drawn(&areas, 100), expected);
    }

    #[test]
    fn edges() {
        assert_eq!(drawn(&[], 100), ["gap 0 100"]);
        assert_eq!(drawn(&[(0, 100)], 100), ["0 0 100"]);
        assert_eq!(drawn(&[(5, 10), (5, 10)], 15), ["gap 0 5", "0 5 10", " 1 5 10"]);
        assert_eq!(drawn(&[(4, 1), (2, 8)], 10), ["gap 0 2", "1 2 8", " gap 2 2", " 0 4 1", " gap 5 5"]);
    }

    #[test]
    fn parents() {
        let areas = [Span { offset: 0, size: 10 }, Span { offset: 2, size: 3 }];
        let parents: Vec<_> = tree(&areas, 20).into_iter().map(|row| (row.area, row.parent)).collect();
        let expected = [(Some(0), None), (None, Some(0)), (Some(1), Some(0)), (None, Some(0)), (None, None)];
        assert_eq!(parents, expected);
    }
}
