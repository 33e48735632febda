#[derive(Clone, Copy, PartialEq, Eq)]
pub enum Side {
    Left,
    Right,
}

/// Columns under their heads, two blanks apart.
pub struct Table {
    sides: Vec<Side>,
    rows: Vec<Vec<String>>,
}

impl Table {
    pub fn new<const N: usize>(heads: [(&str, Side); N]) -> Table {
        let names = heads.iter().map(|(name, _)| name.to_string()).collect();
        Table { sides: heads.iter().map(|(_, side)| *side).collect(), rows: vec![names] }
    }

    pub fn row<const N: usize>(&mut self, cells: [String; N]) {
        self.rows.push(cells.into());
    }

    /// Lines without blanks at their ends.
    pub fn text(&self) -> String {
        let width =
            |column: usize| self.rows.iter().map(|row| row[column].chars().count()).max().unwrap_or(0);
        let widths: Vec<usize> = (0..self.sides.len()).map(width).collect();
        let mut text = String::new();
        for row in &self.rows {
            let start = text.len();
            for ((cell, width), side) in row.iter().zip(&widths).zip(&self.sides) {
                text += if text.len() > start { "  " } else { "" };
                let blanks = width - cell.chars().count();
                let (before, after) = if *side == Side::Left { (0, blanks) } else { (blanks, 0) };
                text.extend(std::iter::repeat_n(' ', before));
                text += cell;
                text.extend(std::iter::repeat_n(' ', after));
            }
            text.truncate(start + text[start..].trim_end().len());
            text.push('\n');
        }
        text
    }
}

#[cfg(test)]
mod tests {
    use super::*;

    #[test]
    fn columns_are_aligned() {
        let mut table = Table::new([("No", Side::Right), ("Name", Side::Left), ("Size", Side::Right)]);
        table.row(["1".into(), "Größe".into(), "10".into()]);
        table.row(["128".into(), String::new(), "4096".into()]);
        assert_eq!(table.text(), " No  Name   Size\n  1  Größe    10\n128         4096\n");
    }
}
