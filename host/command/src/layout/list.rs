use super::{read, refused};
use crate::arguments::Given;
use crate::failure::Failure;
use crate::flash::counted;
use crate::report::Report;
use crate::show::{area_table, areas_json, gaps_json, tree, Area, Span};
use crate::sizes::human;
use usigrambal::{flash, layout};

pub fn list(given: &Given) -> Result<Report, Failure> {
    let path = given.path(0);
    let text = read(path)?;
    let layout = layout::read(&text).map_err(|refusal| refused(refusal, path, &text))?;
    let areas: Vec<Area> = layout::sections(&text)?.into_iter().map(shown).collect();
    let rows = tree(&areas.iter().map(|area| area.span).collect::<Vec<_>>(), layout.size);
    let mut listing = format!(
        "{}: {} bytes ({}), address {:#x}, {}\n\n",
        layout.name,
        layout.size,
        human(layout.size),
        layout.address,
        counted(areas.len(), "section")
    );
    listing += &area_table(&areas, &rows);
    let json = vec![
        ("layout", path.into()),
        ("name", layout.name.into()),
        ("size", layout.size.into()),
        ("address", format!("{:#x}", layout.address).into()),
        ("sections", areas_json(&areas, &rows)),
        ("gaps", gaps_json(&areas, &rows)),
    ];
    Ok(Report::new(listing, json))
}

fn shown(section: layout::Section) -> Area {
    let span = Span { offset: section.position.into(), size: section.size.into() };
    let flags = if section.preserve { flash::Area::PRESERVE } else { 0 };
    Area { span, name: section.name, flags }
}
