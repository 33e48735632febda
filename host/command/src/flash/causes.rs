//! Why an image, or a carry, is refused: the library's number decides, and what helps is told beside it.

use super::Mapped;
use crate::failure::Failure;
use crate::paths::{quoted, shown};
use crate::sizes::human;
use std::path::Path;
use usigrambal::flash::{self, Area};
use usigrambal::{Refusal, Refused, IMAGE_MAX};

const IMAGE_MIN: usize = 98;
const SIGNATURE: &[u8] = b"__FMAP__";

/// An image that has no map; `what` it is for the call.
pub fn of_image(refused: Refused, what: &'static str, path: &Path, image: &[u8]) -> Failure {
    let refusal = refused.refusal;
    let failure = Failure::from(refused).on(what, path);
    match refusal {
        Refusal::ImageLength => failure.hint(format!("an image has {IMAGE_MIN} to {IMAGE_MAX} bytes")),
        Refusal::NoSignature => {
            failure.hint(format!("`usigrambal fmd write LAYOUT {}` writes a map", quoted(path)))
        }
        Refusal::NoGoodMap => failure.hint(signatures(image)),
        _ => failure,
    }
}

/// Why the map at each signature is not good.
fn signatures(image: &[u8]) -> String {
    let places = image.windows(SIGNATURE.len()).enumerate().filter(|(_, bytes)| *bytes == SIGNATURE);
    let places: Vec<u64> = places.map(|(at, _)| at as u64).collect();
    let fault = |at: &u64| {
        let rule = flash::fault_at(image, *at).ok().flatten();
        format!("at {at:#010x}: {}", rule.map_or(String::new(), |rule| rule.found(image, *at)))
    };
    told(&places, fault).unwrap_or_default()
}

/// A carry between two images that have their maps.
pub fn of_carry(refused: Refused, old: &Mapped, new: &Mapped) -> Failure {
    let hint = carry_hint(refused.refusal, old, new);
    Failure::from(refused).on("new", new.path).hint_if(hint)
}

/// The areas that a carry is refused for.
pub fn carry_hint(refusal: Refusal, old: &Mapped, new: &Mapped) -> Option<String> {
    let named = |name: &str| new.map.areas.iter().find(|area| area.name == name);
    let marked: Vec<&Area> = old.map.areas.iter().filter(|area| area.preserved()).collect();
    let targets: Vec<&Area> = marked.iter().filter_map(|area| named(&area.name)).collect();
    let (old_path, new_path) = (shown(old.path), shown(new.path));
    let causes: Vec<String> = match refusal {
        Refusal::AreaMissing => marked
            .iter()
            .filter(|area| named(&area.name).is_none())
            .map(|area| format!("{new_path} has no {}, which has {} in {old_path}", area.name, bytes(area)))
            .collect(),
        Refusal::AreaOtherSize => marked
            .iter()
            .filter_map(|area| Some((area, named(&area.name)?)))
            .filter(|(area, target)| area.size != target.size)
            .map(|(area, target)| {
                format!("{} has {} in {old_path} and {} in {new_path}", area.name, bytes(area), bytes(target))
            })
            .collect(),
        Refusal::AreasShare => sharing(&marked, &old_path).chain(sharing(&targets, &new_path)).collect(),
        Refusal::AreaOnMap => {
            let on_map = |area: &&&Area| named("FMAP").is_some_and(|map| share(area, map));
            let told = |area: &&Area| format!("{} shares bytes with FMAP in {new_path}", area.name);
            targets.iter().filter(on_map).map(told).collect()
        }
        _ => Vec::new(),
    };
    told(&causes, String::clone)
}

fn bytes(area: &Area) -> String {
    format!("{} bytes ({})", area.size, human(area.size.into()))
}

fn share(a: &Area, b: &Area) -> bool {
    let end = |area: &Area| u64::from(area.offset) + u64::from(area.size);
    u64::from(a.offset) < end(b) && u64::from(b.offset) < end(a)
}

/// Each two areas that share a byte.
fn sharing<'a>(areas: &'a [&Area], path: &'a str) -> impl Iterator<Item = String> + 'a {
    let later = move |k: usize| areas[k + 1..].iter().filter(move |other| share(areas[k], other));
    let told = move |a: &Area, b: &Area| format!("{} and {} share bytes in {path}", a.name, b.name);
    (0..areas.len()).flat_map(move |k| later(k).map(move |other| told(areas[k], other)))
}

/// The first of them in a line.
fn told<T>(causes: &[T], words: impl Fn(&T) -> String) -> Option<String> {
    const TOLD: usize = 4;
    let more = causes.len().saturating_sub(TOLD);
    let rest = (more > 0).then(|| format!("and {more} more"));
    let lines: Vec<String> = causes.iter().take(TOLD).map(words).chain(rest).collect();
    (!lines.is_empty()).then(|| lines.join("; "))
}
