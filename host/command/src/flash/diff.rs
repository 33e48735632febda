use super::fates::{rows, Fate, Row};
use super::words::word;
use super::{causes, counted, drawing, pair, rows as in_json, Mapped};
use crate::arguments::Given;
use crate::failure::Failure;
use crate::paths::quoted;
use crate::report::Report;
use crate::show::{printable, Side, Table};
use crate::sizes::human;
use crate::storage;
use std::path::Path;
use usigrambal::flash::{self, Area};
use usigrambal::Refused;

/// What an update would do, before anything is written.
pub fn diff(given: &Given) -> Result<Report, Failure> {
    let (old, new) = pair(given.path(0), given.path(1))?;
    let carry = flash::carry(&old.image.bytes, &mut new.image.bytes.clone());
    let rows = rows((&old.map, &old.image.bytes), (&new.map, &new.image.bytes), &carry);
    let seen = Seen { old: &old, new: &new, rows: &rows, refused: carry.err() };
    let svg = given.value("--svg").map(Path::new);
    let mut report = Report::new(seen.text(), seen.json(svg));
    if let Some(target) = svg {
        let drawing = drawing::of(&seen);
        let images = [(old.path, &old.image.metadata), (new.path, &new.image.metadata)];
        match target == Path::new("-") {
            true if given.has("--json") => {
                return Err(Failure::usage("--svg - and --json both ask for standard output"))
            }
            true => report.text = drawing,
            false => storage::save(target, drawing.as_bytes(), &images)?,
        }
    }
    let report = report.warn(old.several.clone()).warn(new.several.clone());
    Ok(if seen.lost().is_empty() { report } else { report.found() })
}

pub struct Seen<'a> {
    pub old: &'a Mapped<'a>,
    pub new: &'a Mapped<'a>,
    pub rows: &'a [Row],
    /// Why a carry would be refused.
    pub refused: Option<Refused>,
}

impl Seen<'_> {
    pub fn lost(&self) -> Vec<&Row> {
        self.rows.iter().filter(|row| row.lost()).collect()
    }

    /// How many areas a carry brings, and their bytes.
    pub fn carried(&self) -> (usize, u64) {
        let carried = || self.rows.iter().filter(|row| row.fate == Fate::Carried);
        let size = |row: &Row| row.old.as_ref().map_or(0, |area| u64::from(area.size));
        (carried().count(), carried().map(size).sum())
    }

    /// What is lost or carried, and whether a carry is refused: a line each.
    pub fn verdict(&self) -> Vec<String> {
        let (count, bytes) = self.carried();
        let carried = format!("{} ({})", counted(count, "area"), human(bytes));
        let there =
            self.rows.iter().filter(|row| row.fate == Fate::Carried).all(|row| row.equal == Some(true));
        let carried = match (count, there) {
            (0, _) if self.refused.is_some() => "nothing can be carried".to_string(),
            (0, _) => "no area is to be carried".to_string(),
            (_, true) => format!("{carried} to be carried, whose bytes are there already"),
            (_, false) => format!("{carried} to be carried"),
        };
        let lost = self.lost();
        let lost = match (lost.len(), count) {
            (0, 0) => "nothing is lost".to_string(),
            (0, _) => "nothing is lost then".to_string(),
            (count, _) => format!("{} would be lost: {}", counted(count, "area"), names(&lost)),
        };
        let refused = self
            .refused
            .map(|refused| format!("the carry is refused {}: {}", refused.number(), refused.sentence()));
        [format!("{carried}; {lost}")].into_iter().chain(refused).collect()
    }

    /// The areas that a carry is refused for.
    fn hint(&self) -> Option<String> {
        causes::carry_hint(self.refused?.refusal, self.old, self.new)
    }

    fn text(&self) -> String {
        let mut text = self.table() + "\n";
        for row in self.lost() {
            text += &format!("lost: {}\n", why(row, self.refused));
        }
        for row in self.rows {
            if let Some(around) = row.overwritten() {
                text += &format!(
                    "overwritten: {}, by the carried {around}, which holds it in the new map\n",
                    row.name
                );
            }
        }
        let lines = self.verdict().into_iter().chain(self.hint());
        lines.for_each(|line| text += &format!("{line}\n"));
        if self.carried().0 > 0 {
            let (old, new) = (quoted(self.old.path), quoted(self.new.path));
            text += &format!("before {new} is flashed: usigrambal fmap carry {old} {new}\n");
        }
        text
    }

    fn table(&self) -> String {
        let mut table = Table::new([
            ("Area", Side::Left),
            ("Old", Side::Left),
            ("", Side::Right),
            ("New", Side::Left),
            ("", Side::Right),
            ("Change", Side::Left),
            ("Bytes", Side::Left),
            ("PRESERVE", Side::Left),
            ("Update", Side::Left),
        ]);
        let offset =
            |area: &Option<Area>| area.as_ref().map_or("-".into(), |area| format!("{:#010x}", area.offset));
        let size = |area: &Option<Area>| area.as_ref().map_or(String::new(), |area| human(area.size.into()));
        for row in self.rows {
            let bytes = row.equal.map_or("-", |equal| if equal { "equal" } else { "differ" });
            table.row([
                printable(&row.name),
                offset(&row.old),
                size(&row.old),
                offset(&row.new),
                size(&row.new),
                row.change().words().into(),
                bytes.into(),
                marks(row).into(),
                told(row),
            ]);
        }
        table.text()
    }

    fn json(&self, svg: Option<&Path>) -> Vec<(&'static str, crate::json::Json)> {
        let refused = self.refused.map(|refused| u64::from(refused.number()));
        vec![
            ("old", self.old.path.into()),
            ("new", self.new.path.into()),
            ("svg", svg.map(crate::json::Json::from).into()),
            ("carry_refused", refused.into()),
            ("carry_words", self.refused.map(Refused::sentence).into()),
            ("carry_hint", self.hint().into()),
            ("carried", (self.carried().0 as u64).into()),
            ("lost", self.lost().iter().map(|row| row.name.clone()).collect()),
            ("areas", in_json::json(self.rows)),
        ]
    }
}

/// The first of them.
fn names(rows: &[&Row]) -> String {
    const TOLD: usize = 4;
    let more = rows.len().saturating_sub(TOLD);
    let rest = (more > 0).then(|| format!("and {more} more"));
    rows.iter().take(TOLD).map(|row| printable(&row.name)).chain(rest).collect::<Vec<_>>().join(", ")
}

/// Which map marks it.
fn marks(row: &Row) -> &'static str {
    match (row.marked_old(), row.marked_new()) {
        (true, true) => "both",
        (true, false) => "old",
        (false, true) => "new",
        (false, false) => "-",
    }
}

fn told(row: &Row) -> String {
    match &row.fate {
        Fate::Within(around) => format!("carried in {around}"),
        _ if row.lost() => "LOST".into(),
        _ => word(row).into(),
    }
}

/// Why an area would be lost.
fn why(row: &Row, refused: Option<Refused>) -> String {
    let name = printable(&row.name);
    match (&row.fate, refused) {
        (Fate::Unmarked, _) => {
            format!("{name} is marked PRESERVE in the new map alone; the old map's mark decides")
        }
        (Fate::OnlyOld, _) => format!("{name} is marked PRESERVE and only in the old map"),
        (_, Some(refused)) => {
            format!("{name} is marked PRESERVE, and the carry is refused {}", refused.number())
        }
        _ => format!("{name} is not carried"),
    }
}
