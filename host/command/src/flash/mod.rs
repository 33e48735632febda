//! The verbs on flash images.

mod carry;
mod causes;
mod diff;
mod drawing;
mod extract;
mod fates;
pub mod maps;
mod rows;
mod show;
mod words;

pub use carry::carry;
pub use diff::diff;
pub use extract::extract;
pub use show::show;

use crate::failure::Failure;
use crate::image::{self, Image};
use crate::storage::{self, same_file};
use std::path::Path;
use usigrambal::flash::{self, Map};

/// An image with its map.
struct Mapped<'a> {
    path: &'a Path,
    image: Image,
    map: Map,
    /// That it has more than one good map.
    several: Option<String>,
}

/// Reads an image; `what` it is for the call.
fn mapped<'a>(what: &'static str, path: &'a Path) -> Result<Mapped<'a>, Failure> {
    let image = image::read(path)?;
    let map =
        flash::map(&image.bytes).map_err(|refused| causes::of_image(refused, what, path, &image.bytes))?;
    let several = maps::several(path, &image.bytes, map.position);
    Ok(Mapped { path, image, map, several })
}

/// Two images that are not one file. The old one is judged first, as the library does.
fn pair<'a>(old: &'a Path, new: &'a Path) -> Result<(Mapped<'a>, Mapped<'a>), Failure> {
    if same_file(&storage::metadata(old)?, &storage::metadata(new)?) {
        return Err(storage::same(old, new));
    }
    Ok((mapped("old", old)?, mapped("new", new)?))
}

/// `1 area`, `2 areas`.
pub fn counted(count: usize, noun: &str) -> String {
    format!("{count} {noun}{}", if count == 1 { "" } else { "s" })
}
