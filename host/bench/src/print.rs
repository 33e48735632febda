//! The measured rows as one table, for a terminal or in Markdown.

use crate::table::Row;

const HEADINGS: [&str; 7] = ["what", "peer", "size", "ours", "peer's", "ratio", "at least"];
/// Columns of words; the others hold numbers.
const WORDS: usize = 2;

type Cells = [String; HEADINGS.len()];

pub fn text(rows: &[Row]) -> String {
    let all = [vec![HEADINGS.map(str::to_string)], rows.iter().map(cells).collect()].concat();
    let widths = widths(&all);
    let line = |cells: &Cells| padded(cells, &widths).join("  ").trim_end().to_string() + "\n";
    all.iter().map(line).collect()
}

pub fn markdown(rows: &[Row]) -> String {
    let line = |cells: Cells| format!("| {} |\n", cells.join(" | "));
    let alignment = |place| if place < WORDS { "---" } else { "---:" }.to_string();
    let head = line(HEADINGS.map(str::to_string)) + &line(std::array::from_fn(alignment));
    head + &rows.iter().map(|row| line(cells(row))).collect::<String>()
}

fn cells(row: &Row) -> Cells {
    let label = &row.label;
    let mark = if row.is_below() { " below" } else { "" };
    [
        label.what.clone(),
        label.peer.clone(),
        label.size.clone(),
        time(row.ours),
        time(row.peer),
        format!("{}x", digits(row.ratio())),
        label.least.map_or(String::new(), |least| format!("{}x{mark}", digits(least))),
    ]
}

fn widths(rows: &[Cells]) -> [usize; HEADINGS.len()] {
    let width = |place: usize| rows.iter().map(|cells| cells[place].chars().count()).max().unwrap_or(0);
    std::array::from_fn(width)
}

fn padded(cells: &Cells, widths: &[usize; HEADINGS.len()]) -> Cells {
    std::array::from_fn(|place| {
        let (cell, width) = (&cells[place], widths[place]);
        if place < WORDS {
            format!("{cell:<width$}")
        } else {
            format!("{cell:>width$}")
        }
    })
}

pub fn time(seconds: f64) -> String {
    let (unit, scale) = match seconds {
        s if s < 999.5e-9 => ("ns", 1e9),
        s if s < 999.5e-6 => ("us", 1e6),
        _ => ("ms", 1e3),
    };
    format!("{} {unit}", digits(seconds * scale))
}

/// Three digits that count, or all before the point.
fn digits(number: f64) -> String {
    let after_point = match number {
        n if n < 0.0995 => 3,
        n if n < 9.995 => 2,
        n if n < 99.95 => 1,
        _ => 0,
    };
    format!("{number:.after_point$}")
}

#[cfg(test)]
mod tests {
    use super::*;
    use crate::table::Label;

    fn rows() -> Vec<Row> {
        let first = Label::new("crc32", "zlib").size("92 B").at_least(1.0);
        let second = Label::new("find in FF", "memmem");
        vec![Row { label: first, ours: 80e-9, peer: 60e-9 }, Row { label: second, ours: 2e-3, peer: 4e-3 }]
    }

    #[test]
    fn columns_are_aligned() {
        let lines = [
            "what        peer    size     ours   peer's  ratio     at least",
            "crc32       zlib    92 B  80.0 ns  60.0 ns  0.75x  1.00x below",
            "find in FF  memmem        2.00 ms  4.00 ms  2.00x",
        ];
        assert_eq!(text(&rows()).lines().collect::<Vec<_>>(), lines);
    }

    #[test]
    fn markdown_has_the_same_cells() {
        let lines = [
            "| what | peer | size | ours | peer's | ratio | at least |",
            "| --- | --- | ---: | ---: | ---: | ---: | ---: |",
            "| crc32 | zlib | 92 B | 80.0 ns | 60.0 ns | 0.75x | 1.00x below |",
            "| find in FF | memmem |  | 2.00 ms | 4.00 ms | 2.00x |  |",
        ];
        assert_eq!(markdown(&rows()).lines().collect::<Vec<_>>(), lines);
    }

    #[test]
    fn numbers_have_three_digits_that_count() {
        let shown = [0.0714, 0.5, 9.99, 9.999, 99.94, 99.96, 1234.5].map(digits);
        assert_eq!(shown, ["0.071", "0.50", "9.99", "10.0", "99.9", "100", "1234"]);
    }

    #[test]
    fn times_have_their_unit() {
        let shown = [12e-9, 999.4e-9, 999.6e-9, 99.94e-6, 0.25, 1.5].map(time);
        assert_eq!(shown, ["12.0 ns", "999 ns", "1.00 us", "99.9 us", "250 ms", "1500 ms"]);
    }
}
