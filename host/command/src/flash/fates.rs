//! What becomes of each area of two maps when the old one's preserved areas are carried.

use usigrambal::flash::{Area, Map};
use usigrambal::Refused;

/// An area of either map, by its name.
#[derive(Clone, Debug)]
pub struct Row {
    pub name: String,
    pub old: Option<Area>,
    pub new: Option<Area>,
    pub fate: Fate,
    /// The carried area that holds it in the new map, so that its bytes there are overwritten.
    pub under: Option<String>,
    /// Whether both images hold the same bytes there, before the carry; none if one of the maps has no such area.
    pub equal: Option<bool>,
}

#[derive(Clone, Debug, PartialEq, Eq)]
pub enum Fate {
    Carried,
    /// It lies in a carried area, in both maps at the same place of it, and comes with it.
    Within(String),
    /// The old map marks it, but the carry is refused.
    Refused,
    /// Both maps have it, and the old one does not mark it.
    Unmarked,
    OnlyOld,
    OnlyNew,
}

/// How an area differs in the two maps.
#[derive(Clone, Copy, Debug, PartialEq, Eq)]
pub enum Change {
    Same,
    Moved,
    Resized,
    MovedAndResized,
    OnlyOld,
    OnlyNew,
}

impl Change {
    pub fn words(self) -> &'static str {
        match self {
            Change::Same => "same",
            Change::Moved => "moved",
            Change::Resized => "resized",
            Change::MovedAndResized => "moved and resized",
            Change::OnlyOld => "only old",
            Change::OnlyNew => "only new",
        }
    }
}

impl Row {
    pub fn change(&self) -> Change {
        match (&self.old, &self.new) {
            (Some(old), Some(new)) => match (old.offset == new.offset, old.size == new.size) {
                (true, true) => Change::Same,
                (false, true) => Change::Moved,
                (true, false) => Change::Resized,
                (false, false) => Change::MovedAndResized,
            },
            (Some(_), None) => Change::OnlyOld,
            _ => Change::OnlyNew,
        }
    }

    pub fn marked_old(&self) -> bool {
        self.old.as_ref().is_some_and(Area::preserved)
    }

    pub fn marked_new(&self) -> bool {
        self.new.as_ref().is_some_and(Area::preserved)
    }

    /// Its bytes arrive.
    pub fn brought(&self) -> bool {
        matches!(self.fate, Fate::Carried | Fate::Within(_))
    }

    /// The old image has bytes of it, a map marks it, and they do not arrive.
    pub fn lost(&self) -> bool {
        self.old.is_some() && (self.marked_old() || self.marked_new()) && !self.brought()
    }

    /// A carried area overwrites it with bytes that are not its own.
    pub fn overwritten(&self) -> Option<&str> {
        self.under.as_deref().filter(|_| !self.brought())
    }
}

/// The areas of the old map in its order, then those that the new map alone has; `carry` is what a carry of these
/// images answers.
pub fn rows(old: (&Map, &[u8]), new: (&Map, &[u8]), carry: &Result<(), Refused>) -> Vec<Row> {
    let ((old, old_image), (new, new_image)) = (old, new);
    let named = |map: &Map, name: &str| map.areas.iter().find(|area| area.name == name).cloned();
    let only_new = new.areas.iter().filter(|area| named(old, &area.name).is_none());
    let mut rows: Vec<Row> = old
        .areas
        .iter()
        .chain(only_new)
        .map(|area| {
            let (old, new) = (named(old, &area.name), named(new, &area.name));
            let equal =
                old.as_ref().zip(new.as_ref()).map(|(old, new)| old.bytes(old_image) == new.bytes(new_image));
            let fate = fate(old.as_ref(), new.as_ref(), carry.is_ok());
            Row { name: area.name.clone(), old, new, fate, under: None, equal }
        })
        .collect();
    let carried: Vec<Row> = rows.iter().filter(|row| row.fate == Fate::Carried).cloned().collect();
    for row in rows.iter_mut().filter(|row| row.fate != Fate::Carried) {
        if let Some(around) = carried.iter().find(|around| holds(around, row)) {
            row.under = Some(around.name.clone());
            if comes_with(around, row) {
                row.fate = Fate::Within(around.name.clone());
            }
        }
    }
    rows
}

fn fate(old: Option<&Area>, new: Option<&Area>, accepted: bool) -> Fate {
    match (old, new) {
        (None, _) => Fate::OnlyNew,
        (_, None) => Fate::OnlyOld,
        (Some(old), _) if !old.preserved() => Fate::Unmarked,
        _ if accepted => Fate::Carried,
        _ => Fate::Refused,
    }
}

/// Whether the new map has the area in the other one, or where it is.
fn holds(around: &Row, row: &Row) -> bool {
    around.new.as_ref().zip(row.new.as_ref()).is_some_and(|(around, area)| place_in(around, area).is_some())
}

fn comes_with(around: &Row, row: &Row) -> bool {
    let place = |around: &Option<Area>, area: &Option<Area>| {
        let (around, area) = around.as_ref().zip(area.as_ref())?;
        Some((place_in(around, area)?, area.size))
    };
    place(&around.old, &row.old).is_some_and(|old| Some(old) == place(&around.new, &row.new))
}

/// Where in an area another one begins that ends in it.
fn place_in(around: &Area, area: &Area) -> Option<u32> {
    let end = |area: &Area| u64::from(area.offset) + u64::from(area.size);
    area.offset.checked_sub(around.offset).filter(|_| end(area) <= end(around))
}

#[cfg(test)]
mod tests {
    use super::*;
    use usigrambal::flash;
    use usigrambal::layout::write_map;

    fn image(sections: &str, fill: u8) -> Vec<u8> {
        let mut image = vec![fill; 65_536];
        write_map(format!("I 64K {{ FMAP 4K {sections} }}"), &mut image).expect("a map");
        image
    }

    fn told(old: &str, new: &str) -> Vec<(String, Change, Fate, Option<String>, bool)> {
        let (old, new) = (image(old, 1), image(new, 2));
        let carry = flash::carry(&old, &mut new.clone());
        let rows = rows((&flash::map(&old).unwrap(), &old), (&flash::map(&new).unwrap(), &new), &carry);
        let one =
            |row: Row| (row.name.clone(), row.change(), row.fate.clone(), row.under.clone(), row.lost());
        rows.into_iter().map(one).filter(|row| row.0 != "FMAP").collect()
    }

    fn of(
        name: &str,
        change: Change,
        fate: Fate,
        under: Option<&str>,
        lost: bool,
    ) -> (String, Change, Fate, Option<String>, bool) {
        (name.into(), change, fate, under.map(str::to_string), lost)
    }

    #[test]
    fn each_area_of_either_map() {
        use Change::*;
        let old = "A(PRESERVE)@4K 1K B@8K 1K C@12K 1K D@16K 1K E@20K 1K";
        let new = "A@5K 1K B(PRESERVE)@8K 1K C@12K 2K E@21K 2K N(PRESERVE)@24K 1K";
        let expected = [
            of("A", Moved, Fate::Carried, None, false),
            of("B", Same, Fate::Unmarked, None, true),
            of("C", Resized, Fate::Unmarked, None, false),
            of("D", OnlyOld, Fate::OnlyOld, None, false),
            of("E", MovedAndResized, Fate::Unmarked, None, false),
            of("N", OnlyNew, Fate::OnlyNew, None, false),
        ];
        assert_eq!(told(old, new), expected);
    }

    #[test]
    fn a_refused_carry_brings_nothing() {
        use Change::*;
        let expected = [
            of("A", Same, Fate::Refused, None, true),
            of("B", OnlyOld, Fate::OnlyOld, None, true),
            of("C", Resized, Fate::Refused, None, true),
        ];
        assert_eq!(
            told("A(PRESERVE)@4K 1K B(PRESERVE)@8K 1K C(PRESERVE)@12K 1K", "A@4K 1K C@12K 2K"),
            expected
        );
    }

    #[test]
    fn areas_in_a_carried_one() {
        use Change::*;
        let old = "A(PRESERVE)@8K 4K { SAME@1K 1K ELSE@2K 1K LESS@3K 1K } OUT@32K 1K";
        let new = "A@16K 4K { OUT@0 512 ELSE@512 512 SAME(PRESERVE)@1K 1K LESS@3K 512 NEW }";
        let expected = [
            of("A", Moved, Fate::Carried, None, false),
            of("SAME", Moved, Fate::Within("A".into()), Some("A"), false),
            of("ELSE", MovedAndResized, Fate::Unmarked, Some("A"), false),
            of("LESS", MovedAndResized, Fate::Unmarked, Some("A"), false),
            of("OUT", MovedAndResized, Fate::Unmarked, Some("A"), false),
            of("NEW", OnlyNew, Fate::OnlyNew, Some("A"), false),
        ];
        assert_eq!(told(old, new), expected);
    }
}
