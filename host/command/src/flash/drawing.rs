//! Two maps and what is carried, as a drawing.

use super::diff::Seen;
use super::fates::{Fate, Row};
use super::words::becomes;
use super::{counted, Mapped};
use crate::paths::shown;
use crate::show::svg::{drawn, Column, Drawing, Look, Shape};
use crate::show::{tree, Span};
use crate::sizes::human;
use usigrambal::flash::Area;

pub fn of(seen: &Seen) -> String {
    let carried = seen.rows.iter().filter(|row| row.fate == Fate::Carried);
    let bands = carried.filter_map(|row| Some((span(row.old.as_ref()?), span(row.new.as_ref()?))));
    drawn(&Drawing {
        title: format!("{} → {}", shown(seen.old.path), shown(seen.new.path)),
        verdict: seen.verdict(),
        bad: !seen.lost().is_empty(),
        old: column("old", seen.old, seen.rows, true),
        new: column("new", seen.new, seen.rows, false),
        bands: bands.collect(),
    })
}

fn span(area: &Area) -> Span {
    Span { offset: area.offset.into(), size: area.size.into() }
}

fn column(which: &str, mapped: &Mapped, rows: &[Row], old: bool) -> Column {
    let len = mapped.image.bytes.len() as u64;
    let areas = &mapped.map.areas;
    let nested = tree(&areas.iter().map(span).collect::<Vec<_>>(), len);
    let shapes = nested.iter().filter_map(|place| {
        let area = &areas[place.area?];
        let row = rows.iter().find(|row| row.name == area.name)?;
        Some(Shape {
            span: place.span,
            depth: place.depth,
            parent: nested.iter().any(|inner| inner.parent == place.area && inner.area.is_some()),
            look: look(row, old),
            name: area.name.clone(),
            marked: area.preserved(),
            tip: format!(
                "{}: {:#010x}, {} bytes ({}); {}",
                area.name,
                area.offset,
                area.size,
                human(area.size.into()),
                becomes(row)
            ),
        })
    });
    let about = format!("{}, {}", human(len), counted(areas.len(), "area"));
    Column { title: format!("{which}: {}", mapped.map.name), about, len, shapes: shapes.collect() }
}

fn look(row: &Row, old: bool) -> Look {
    match &row.fate {
        Fate::Carried => Look::Carried,
        Fate::Within(_) => Look::Along,
        _ if row.lost() => Look::Lost,
        _ if !old && row.overwritten().is_some() => Look::Overwritten,
        Fate::OnlyOld | Fate::OnlyNew => Look::Alone,
        _ => Look::Left,
    }
}
