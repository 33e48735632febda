//! Tables, drawings and trees for people.

mod areas;
mod bar;
mod progress;
pub mod svg;
mod table;
mod tree;

pub use areas::{area_table, areas_json, gaps_json, Area};
pub use bar::{bar, Item};
pub use progress::Progress;
pub use table::{Side, Table};
pub use tree::{tree, Row, Span};

/// Text for a terminal: what it would not print, or would obey, is escaped.
pub fn printable(text: &str) -> String {
    let escaped = |c: char| match c {
        '"' | '\'' => c.to_string(),
        c => c.escape_debug().to_string(),
    };
    text.chars().map(escaped).collect()
}

#[cfg(test)]
mod tests {
    #[test]
    fn what_a_terminal_would_obey_is_escaped() {
        assert_eq!(super::printable("Größe \"3½\""), "Größe \"3½\"");
        assert_eq!(super::printable("a\u{1b}[2J\\\n"), "a\\u{1b}[2J\\\\\\n");
    }
}
