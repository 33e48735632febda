use super::mapped;
use crate::arguments::Given;
use crate::failure::Failure;
use crate::paths::shown;
use crate::report::{self, Report};
use crate::storage;
use std::io::{self, IsTerminal};
use std::os::unix::ffi::OsStrExt;
use std::path::Path;
use usigrambal::{flash, Refusal};

pub fn extract(given: &Given) -> Result<Report, Failure> {
    let target = given.value("-o").map(Path::new).filter(|path| *path != Path::new("-"));
    if target.is_none() && io::stdout().is_terminal() {
        let what = "standard output is a terminal, which raw bytes would spoil";
        return Err(Failure::usage(what).hint("-o FILE or a pipe takes them"));
    }
    let (path, name) = (given.path(0), given.operands[1].as_os_str());
    let mapped = mapped("image", path)?;
    let image = &mapped.image.bytes;
    let found = flash::area_named(image, name.as_bytes())?;
    let area = found.map(|k| flash::area(image, k)).transpose()?.flatten();
    let Some(area) = area else {
        let names: Vec<&str> = mapped.map.areas.iter().map(|area| area.name.as_str()).collect();
        let words = format!("no area has that name: {}", shown(Path::new(name)));
        let failure = Failure::refused(Refusal::NoSuchArea, words).on("image", path);
        return Err(failure.hint(format!("the map has {}", names.join(", "))).warn(mapped.several));
    };
    let bytes = area.bytes(image);
    match target {
        Some(target) => storage::save(target, bytes, &[(path, &mapped.image.metadata)])?,
        None => report::print(bytes)?,
    }
    Ok(Report::new("", Vec::new()).warn(mapped.several))
}
