use super::map::{area_named, find, Area, Map};
use super::Image;
use crate::bytes::{part, put};
use crate::refuse::{first_refusal, leave};
use crate::rules::{By, CarrySlip, FmapRules, In, Row, Rules};

/// An area to be carried, and the area of the new map that takes its bytes.
struct Pair<'a> {
    from: &'a Area,
    to: Option<&'a Area>,
}

/// M11 to M13: carries the areas that the old map preserves into the new image.
pub fn fmap_carry(rules: &Rules, old: &[u8], new: &mut [u8]) -> u32 {
    let (old_image, new_image) = (Image::of(rules, old), Image::of(rules, new));
    let pairs = match (old_image.map(), new_image.map()) {
        (Some(old), Some(new)) => pairs(&rules.fmap, old, new),
        _ => Vec::new(),
    };
    let refusal = first_refusal(rules, rules.fmap.carry_order, |row| match row {
        Row::NewImageLength => new_image.holds(rules, Row::ImageLength),
        Row::NewNoSignature => new_image.holds(rules, Row::NoSignature),
        Row::NewNoGoodMap => new_image.holds(rules, Row::NoGoodMap),
        Row::AreaMissing => pairs.iter().any(|pair| pair.to.is_none()),
        Row::OtherSize => pairs.iter().any(|pair| pair.to.is_some_and(|to| to.size != pair.from.size)),
        Row::SharedByte => share(&rules.fmap, &pairs),
        Row::OnFmap => on_fmap(&rules.fmap, &pairs, old_image.map(), new_image.map()),
        _ => old_image.holds(rules, row),
    });
    match refusal {
        None => pairs.iter().for_each(|pair| carry(rules, pair, old, new)),
        Some(_) => leave(rules, new),
    }
    refusal.unwrap_or(0)
}

/// M11: for each area with PRESERVE in the old map, the same-named area of the new one.
fn pairs<'a>(rules: &FmapRules, old: &'a Map, new: &'a Map) -> Vec<Pair<'a>> {
    let targets =
        old.areas.iter().enumerate().map(|(k, from)| Pair { from, to: target(rules, k, from, new) });
    targets.filter(|pair| is_preserved(rules, pair)).collect()
}

fn target<'a>(rules: &FmapRules, k: usize, from: &Area, new: &'a Map) -> Option<&'a Area> {
    match rules.target_by {
        By::Name => area_named(&new.areas, &from.name),
        By::Index => new.areas.get(k),
        By::Offset => new.areas.iter().find(|area| area.offset == from.offset),
    }
}

fn is_preserved(rules: &FmapRules, pair: &Pair) -> bool {
    let marked = |area: &Area| area.flags & rules.preserve != 0;
    let (in_old, in_new) = (marked(pair.from), pair.to.is_some_and(marked));
    match rules.preserve_in {
        In::Old => in_old,
        In::New => in_new,
        In::Either => in_old || in_new,
    }
}

/// R24: two areas to be carried share a byte in either map.
fn share(rules: &FmapRules, pairs: &[Pair]) -> bool {
    let in_old = |a: &Pair, b: &Pair| meet(rules, a.from, b.from);
    let in_new = |a: &Pair, b: &Pair| a.to.zip(b.to).is_some_and(|(a, b)| meet(rules, a, b));
    let two = |a: &Pair, b: &Pair| match rules.shared_in {
        In::Old => in_old(a, b),
        In::New => in_new(a, b),
        In::Either => in_old(a, b) || in_new(a, b),
    };
    (1..pairs.len()).any(|k| pairs[..k].iter().any(|earlier| two(earlier, &pairs[k])))
}

/// Equal and nested areas share bytes too.
fn meet(rules: &FmapRules, a: &Area, b: &Area) -> bool {
    let touch = a.offset == b.offset + b.size || b.offset == a.offset + a.size;
    if !a.shares_a_byte(b) {
        return rules.touching_shares && touch;
    }
    if a.is_equal(b) {
        return rules.equal_shares;
    }
    rules.nested_shares
}

/// R24: in the new map one shares a byte with area FMAP.
fn on_fmap(rules: &FmapRules, pairs: &[Pair], old: Option<&Map>, new: Option<&Map>) -> bool {
    let meets_fmap = |map: Option<&Map>, area: &Area| {
        let fmap = map.and_then(|map| area_named(&map.areas, rules.fmap_name));
        fmap.is_some_and(|fmap| fmap.shares_a_byte(area))
    };
    let in_old = |pair: &Pair| meets_fmap(old, pair.from);
    let in_new = |pair: &Pair| pair.to.is_some_and(|to| meets_fmap(new, to));
    pairs.iter().any(|pair| match rules.fmap_of {
        In::Old => in_old(pair),
        In::New => in_new(pair),
        In::Either => in_old(pair) || in_new(pair),
    })
}

/// M11, M12: the area's bytes and no other.
fn carry(rules: &Rules, pair: &Pair, old: &[u8], new: &mut [u8]) {
    let (from, slip) = (pair.from, rules.fmap.carry_slip);
    let Some(to) = pair.to.map(|to| current(rules, to, new)) else { return };
    let len = match slip {
        Some(CarrySlip::OneByteMore) => from.size + 1,
        Some(CarrySlip::OneByteLess) => from.size - 1,
        _ => from.size,
    };
    let at = if slip == Some(CarrySlip::AtOldOffset) { from.offset } else { to.offset };
    put(new, at as usize, part(old, from.offset as usize, len as usize));
    if slip == Some(CarrySlip::FlagsToo) {
        copy_flags(rules, from, new);
    }
}

/// M13: the map is the one found before the carry, not one found now.
fn current(rules: &Rules, to: &Area, new: &[u8]) -> Area {
    if rules.fmap.found_before_carry {
        return to.clone();
    }
    let found = find(rules, new);
    let now = found.map().and_then(|map| area_named(&map.areas, &to.name));
    now.unwrap_or(to).clone()
}

/// By a slip, the old flags go into the new map.
fn copy_flags(rules: &Rules, from: &Area, new: &mut [u8]) {
    let found = find(rules, new);
    let Some(map) = found.map() else { return };
    let Some(k) = map.areas.iter().position(|area| area.name == from.name) else { return };
    let fmap = &rules.fmap;
    let at = map.position + fmap.header_len + k * fmap.area_len + fmap.flags.at;
    put(new, at, part(&from.bytes, fmap.flags.at, fmap.flags.len));
}
