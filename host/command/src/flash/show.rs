use super::{counted, mapped};
use crate::arguments::Given;
use crate::failure::Failure;
use crate::paths::shown as path_shown;
use crate::report::Report;
use crate::show::{area_table, areas_json, gaps_json, tree, Area, Span};
use crate::sizes::human;
use usigrambal::flash;

pub fn show(given: &Given) -> Result<Report, Failure> {
    let path = given.path(0);
    let mapped = mapped("image", path)?;
    let (map, len) = (mapped.map, mapped.image.bytes.len() as u64);
    let areas: Vec<Area> = map.areas.into_iter().map(shown).collect();
    let rows = tree(&areas.iter().map(|area| area.span).collect::<Vec<_>>(), len);
    let mut text = format!("{}: {len} bytes ({})\n", path_shown(path), human(len));
    text += &format!(
        "map {} at {:#010x}, version {}.{}, base {:#x}, {}\n\n",
        map.name,
        map.position,
        map.major,
        map.minor,
        map.base,
        counted(areas.len(), "area")
    );
    text += &area_table(&areas, &rows);
    let json = vec![
        ("image", path.into()),
        ("bytes", len.into()),
        ("name", map.name.into()),
        ("position", map.position.into()),
        ("version", format!("{}.{}", map.major, map.minor).into()),
        ("base", format!("{:#x}", map.base).into()),
        ("areas", areas_json(&areas, &rows)),
        ("gaps", gaps_json(&areas, &rows)),
    ];
    Ok(Report::new(text, json).warn(mapped.several))
}

fn shown(area: flash::Area) -> Area {
    let span = Span { offset: area.offset.into(), size: area.size.into() };
    Area { span, name: area.name, flags: area.flags }
}
