//! The rows: all are measured in one run, ours and the peer in turn, best of several.

use crate::timed::Timed;

pub const ROUNDS: usize = 15;
/// One timing lasts at least so many seconds, so that the clock's step does not count.
const TIMING: f64 = 0.002;

/// What a row says before it is measured.
#[derive(Clone, Debug, Default)]
pub struct Label {
    pub what: String,
    pub peer: String,
    pub size: String,
    /// How many times as fast as the peer ours should be.
    pub least: Option<f64>,
}

impl Label {
    pub fn new(what: impl Into<String>, peer: impl Into<String>) -> Label {
        Label { what: what.into(), peer: peer.into(), ..Label::default() }
    }

    pub fn size(self, size: impl Into<String>) -> Label {
        Label { size: size.into(), ..self }
    }

    pub fn bytes(self, bytes: usize) -> Label {
        self.size(size_text(bytes))
    }

    pub fn at_least(self, least: f64) -> Label {
        Label { least: Some(least), ..self }
    }

    /// The bound as the time that ours may take, in units of the peer's.
    pub fn at_most_units(self, units: f64) -> Label {
        self.at_least(1.0 / units)
    }
}

/// A row after its measuring: seconds for one repeat of each side.
pub struct Row {
    pub label: Label,
    pub ours: f64,
    pub peer: f64,
}

impl Row {
    /// How many times as fast as the peer ours is.
    pub fn ratio(&self) -> f64 {
        self.peer / self.ours
    }

    pub fn is_below(&self) -> bool {
        self.label.least.is_some_and(|least| self.ratio() < least)
    }
}

struct Side<'a> {
    work: Timed<'a>,
    repeats: u64,
    best: f64,
}

#[derive(Default)]
pub struct Table<'a> {
    rows: Vec<(Label, Side<'a>, Side<'a>)>,
    /// Words without which a row is not measured.
    only: Option<String>,
    /// One sentence for each peer that is not there.
    pub left_out: Vec<String>,
}

impl<'a> Table<'a> {
    /// A table of the rows with these words in their first column, if there are any.
    pub fn with(only: Option<String>) -> Table<'a> {
        Table { only, ..Table::default() }
    }

    /// Adds a row: our work and the peer's.
    pub fn row(&mut self, label: Label, ours: Timed<'a>, peer: Timed<'a>) {
        if self.only.iter().all(|words| label.what.contains(words)) {
            self.rows.push((label, side(ours), side(peer)));
        }
    }

    /// Times all rows, round by round.
    pub fn measured(mut self, rounds: usize) -> Vec<Row> {
        for round in 0..rounds {
            for (_, ours, peer) in &mut self.rows {
                // Neither side always has the caches that the other left.
                let sides = if round % 2 == 0 { [ours, peer] } else { [peer, ours] };
                sides.into_iter().for_each(Side::time);
            }
        }
        self.rows
            .into_iter()
            .map(|(label, ours, peer)| Row { label, ours: ours.best, peer: peer.best })
            .collect()
    }
}

impl Side<'_> {
    fn time(&mut self) {
        self.best = self.best.min((self.work)(self.repeats));
    }
}

fn side(mut work: Timed) -> Side {
    let mut repeats = 1;
    while work(repeats) * (repeats as f64) < TIMING {
        repeats *= 2;
    }
    Side { work, repeats, best: f64::INFINITY }
}

fn size_text(bytes: usize) -> String {
    const KIB: usize = 1 << 10;
    const MIB: usize = 1 << 20;
    match (bytes % MIB, bytes % KIB) {
        (0, _) => format!("{} MiB", bytes / MIB),
        (_, 0) => format!("{} KiB", bytes / KIB),
        _ => format!("{bytes} B"),
    }
}

#[cfg(test)]
mod tests {
    use super::*;

    #[test]
    fn sizes_have_their_unit() {
        let sizes = [92, 1025, 16 << 10, 1 << 20, 16 << 20].map(size_text);
        assert_eq!(sizes, ["92 B", "1025 B", "16 KiB", "1 MiB", "16 MiB"]);
    }

    #[test]
    fn only_the_rows_that_are_asked_for() {
        let mut table = Table::with(Some("gpt add".into()));
        for what in ["gpt add, in memory", "gpt read", "usigrambal gpt add"] {
            table.row(Label::new(what, ""), Box::new(|_| 1.0), Box::new(|_| 1.0));
        }
        let measured: Vec<String> = table.measured(1).into_iter().map(|row| row.label.what).collect();
        assert_eq!(measured, ["gpt add, in memory", "usigrambal gpt add"]);
    }

    #[test]
    fn a_ratio_above_one_is_for_ours() {
        let row = |least| Row { label: Label::new("a", "b").at_least(least), ours: 2.0, peer: 3.0 };
        assert_eq!(row(1.0).ratio(), 1.5);
        assert!(!row(1.5).is_below() && row(1.6).is_below());
    }

    /// Each side is timed by itself, long enough, and shows its best.
    #[test]
    fn the_best_of_each_side_counts() {
        let falling = |from: f64| {
            let mut seconds = from;
            Box::new(move |_| {
                seconds *= 0.5;
                seconds
            })
        };
        let mut table = Table::default();
        table.row(Label::new("a", "b"), falling(1.0), falling(4.0));
        let rows = table.measured(ROUNDS);
        let rounds = 0.5_f64.powi(ROUNDS as i32 + 1);
        assert_eq!((rows[0].ours, rows[0].peer), (rounds, 4.0 * rounds));
    }
}
