use super::fates::{rows, Fate, Row};
use super::words::{becomes, faults};
use super::{causes, counted, pair, rows as in_json, Mapped};
use crate::arguments::Given;
use crate::failure::Failure;
use crate::image;
use crate::json::Json;
use crate::paths::{quoted, shown};
use crate::report::Report;
use crate::show::{printable, Side, Table};
use crate::sizes::human;
use usigrambal::flash::{self, Carried};

pub fn carry(given: &Given) -> Result<Report, Failure> {
    let (old, new) = pair(given.path(0), given.path(1))?;
    let mut after = new.image.bytes.clone();
    let carry = flash::carry(&old.image.bytes, &mut after);
    let rows = rows((&old.map, &old.image.bytes), (&new.map, &new.image.bytes), &carry);
    carry.map_err(|refused| causes::of_carry(refused, &old, &new))?;
    let carried = flash::carried(&old.image.bytes, &new.image.bytes)?;
    let faults = faults(&rows);
    let held_back = given.has("--strict") && !faults.is_empty();
    let changed = after != new.image.bytes;
    let dry_run = given.has("--dry-run");
    if changed && !dry_run && !held_back {
        image::write(new.path, &new.image, &after, given.has("--force"))?;
    }
    let done = Done { old: &old, new: &new, after: &after, carried, rows, dry_run, held_back };
    let none =
        done.carried.is_empty().then(|| format!("the map of {} marks no area PRESERVE", shown(old.path)));
    let report = Report::new(done.text(), done.json(changed, given.has("--strict"), &faults));
    let report = report.warn(none).warn(faults).warn(old.several.clone()).warn(new.several.clone());
    Ok(match held_back {
        true => report.found(),
        false => report.written(done.written(changed)),
    })
}

struct Done<'a> {
    old: &'a Mapped<'a>,
    new: &'a Mapped<'a>,
    after: &'a [u8],
    carried: Vec<Carried>,
    rows: Vec<Row>,
    dry_run: bool,
    held_back: bool,
}

impl Done<'_> {
    /// Whether a carried area's bytes become others.
    fn differs(&self, one: &Carried) -> bool {
        let of = |image: &[u8]| image[one.to as usize..][..one.size as usize].to_vec();
        of(self.after) != of(&self.new.image.bytes)
    }

    fn text(&self) -> String {
        let total: u64 = self.carried.iter().map(|one| u64::from(one.size)).sum();
        let verb = if self.dry_run || self.held_back { "would be carried" } else { "carried" };
        let same = if self.after == self.new.image.bytes { "; no byte changes" } else { "" };
        let mut text = format!(
            "{}\n{} {verb} from {} into {}, {total} bytes ({}){same}\n",
            self.table(),
            counted(self.carried.len(), "area"),
            shown(self.old.path),
            shown(self.new.path),
            human(total)
        );
        if self.held_back {
            text += &format!("nothing was written: {} is as it was (--strict)\n", shown(self.new.path));
        }
        text
    }

    /// Every area of either map.
    fn table(&self) -> String {
        let mut table = Table::new([
            ("Area", Side::Left),
            ("From", Side::Left),
            ("To", Side::Left),
            ("Size", Side::Left),
            ("", Side::Right),
            ("What becomes of it", Side::Left),
        ]);
        let offset = |area: &Option<flash::Area>| {
            area.as_ref().map_or("-".to_string(), |area| format!("{:#010x}", area.offset))
        };
        for row in &self.rows {
            let size = row.new.as_ref().or(row.old.as_ref()).map_or(0, |area| area.size);
            let carried = self.carried.iter().find(|one| row.fate == Fate::Carried && one.name == row.name);
            let same = carried.is_some_and(|one| !self.differs(one));
            table.row([
                printable(&row.name),
                offset(&row.old),
                offset(&row.new),
                format!("{size:#010x}"),
                human(size.into()),
                becomes(row) + if same { ", the same bytes already" } else { "" },
            ]);
        }
        table.text()
    }

    fn json(&self, changed: bool, strict: bool, faults: &[String]) -> Vec<(&'static str, Json)> {
        let one = |one: &Carried| {
            Json::Object(vec![
                ("name", one.name.clone().into()),
                ("from", u64::from(one.from).into()),
                ("to", u64::from(one.to).into()),
                ("size", u64::from(one.size).into()),
                ("changed", self.differs(one).into()),
            ])
        };
        vec![
            ("old", self.old.path.into()),
            ("new", self.new.path.into()),
            ("dry_run", self.dry_run.into()),
            ("strict", strict.into()),
            ("held_back", self.held_back.into()),
            ("changed", (changed && !self.held_back).into()),
            ("carried", self.carried.iter().map(one).collect()),
            ("areas", in_json::json(&self.rows)),
            ("faults", faults.iter().cloned().collect()),
        ]
    }

    fn written(&self, changed: bool) -> Option<String> {
        let (old, new) = (quoted(self.old.path), quoted(self.new.path));
        let what =
            format!("{} was written; `usigrambal fmap diff {old} {new}` shows it", shown(self.new.path));
        (changed && !self.dry_run).then_some(what)
    }
}
