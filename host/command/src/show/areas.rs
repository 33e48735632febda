//! The areas of a map or the sections of a layout, by their nesting.

use super::{printable, Row, Side, Span, Table};
use crate::json::Json;
use crate::sizes::human;

const GAP: &str = "(gap)";

#[derive(Clone, Debug)]
pub struct Area {
    pub span: Span,
    pub name: String,
    pub flags: u16,
}

const FLAGS: [(u16, &str); 4] = [
    (usigrambal::flash::Area::STATIC, "STATIC"),
    (usigrambal::flash::Area::COMPRESSED, "COMPRESSED"),
    (usigrambal::flash::Area::RO, "RO"),
    (usigrambal::flash::Area::PRESERVE, "PRESERVE"),
];

/// The names of the flags; bits without a name together as a number.
fn flag_words(flags: u16) -> Vec<String> {
    let named = FLAGS.iter().filter(|(bit, _)| flags & bit != 0).map(|(_, word)| word.to_string());
    let rest = FLAGS.iter().fold(flags, |flags, (bit, _)| flags & !bit);
    named.chain((rest != 0).then(|| format!("{rest:#x}"))).collect()
}

pub fn area_table(areas: &[Area], rows: &[Row]) -> String {
    let mut table = Table::new([
        ("Offset", Side::Left),
        ("Size", Side::Left),
        ("", Side::Right),
        ("Name", Side::Left),
        ("Flags", Side::Left),
    ]);
    for row in rows {
        let area = row.area.map(|place| &areas[place]);
        let name = area.map_or(GAP.to_string(), |area| printable(&area.name));
        table.row([
            format!("{:#010x}", row.span.offset),
            format!("{:#010x}", row.span.size),
            human(row.span.size),
            format!("{:indent$}{name}", "", indent = 2 * row.depth),
            area.map_or(String::new(), |area| flag_words(area.flags).join(" ")),
        ]);
    }
    table.text()
}

/// The areas in their own order, each with the one that holds it.
pub fn areas_json(areas: &[Area], rows: &[Row]) -> Json {
    let one = |(place, area): (usize, &Area)| {
        let row = rows.iter().find(|row| row.area == Some(place));
        let holder = row.and_then(|row| row.parent).map(|parent| areas[parent].name.clone());
        Json::Object(vec![
            ("name", area.name.clone().into()),
            ("offset", area.span.offset.into()),
            ("size", area.span.size.into()),
            ("flags", flag_words(area.flags).into_iter().collect()),
            ("flag_bits", u64::from(area.flags).into()),
            ("within", holder.into()),
            ("depth", row.map(|row| row.depth as u64).into()),
        ])
    };
    areas.iter().enumerate().map(one).collect()
}

pub fn gaps_json(areas: &[Area], rows: &[Row]) -> Json {
    let gaps = rows.iter().filter(|row| row.area.is_none());
    gaps.map(|row| {
        Json::Object(vec![
            ("offset", row.span.offset.into()),
            ("size", row.span.size.into()),
            ("within", row.parent.map(|parent| areas[parent].name.clone()).into()),
        ])
    })
    .collect()
}

#[cfg(test)]
mod tests {
    use super::*;
    use crate::show::tree;

    #[test]
    fn flags_in_words() {
        assert!(flag_words(0).is_empty());
        assert_eq!(flag_words(15), ["STATIC", "COMPRESSED", "RO", "PRESERVE"]);
        assert_eq!(flag_words(0x8008), ["PRESERVE", "0x8000"]);
    }

    #[test]
    fn a_table_of_areas() {
        let area =
            |offset, size, name: &str, flags| Area { span: Span { offset, size }, name: name.into(), flags };
        let areas = [area(0, 4096, "BOOT", 4), area(0, 1024, "FMAP", 0)];
        let rows = tree(&areas.iter().map(|area| area.span).collect::<Vec<_>>(), 8192);
        let expected = "\
Offset      Size               Name     Flags
0x00000000  0x00001000  4 KiB  BOOT     RO
0x00000000  0x00000400  1 KiB    FMAP
0x00000400  0x00000c00  3 KiB    (gap)
0x00001000  0x00001000  4 KiB  (gap)
";
        assert_eq!(area_table(&areas, &rows), expected);
        let gaps = r#"[{"offset": 1024, "size": 3072, "within": "BOOT"}, {"offset": 4096, "size": 4096, "within": null}]"#;
        assert_eq!(gaps_json(&areas, &rows).to_string(), gaps);
    }
}
