//! What becomes of an area, in words.

use super::fates::{Fate, Row};

/// For a table: what a carry does with it, and why.
pub fn becomes(row: &Row) -> String {
    let left = match row.overwritten() {
        Some(around) => format!("overwritten by {around}, which holds it"),
        None => "left as the new image has it".to_string(),
    };
    match &row.fate {
        Fate::Carried => "carried".into(),
        Fate::Within(around) => format!("carried in {around}"),
        Fate::Refused => "not carried: refused".into(),
        Fate::Unmarked if row.marked_new() => format!("{left}: marked in the new map alone"),
        Fate::Unmarked => format!("{left}: not marked in the old map"),
        Fate::OnlyOld => "gone: only in the old map".into(),
        Fate::OnlyNew if row.marked_new() => format!("{left}: only in the new map, which marks it"),
        Fate::OnlyNew => format!("{left}: only in the new map"),
    }
}

/// One word, for programs.
pub fn word(row: &Row) -> &'static str {
    match row.fate {
        Fate::Carried => "carried",
        Fate::Within(_) => "within",
        _ if row.lost() => "lost",
        _ if row.overwritten().is_some() => "overwritten",
        Fate::OnlyOld => "gone",
        _ => "left",
    }
}

/// What speaks against a carry: areas that a map marks and that it does not bring, and areas that it overwrites.
pub fn faults(rows: &[Row]) -> Vec<String> {
    let marked = |row: &&Row| (row.marked_old() || row.marked_new()) && !row.brought();
    let unbrought = rows.iter().filter(marked).map(|row| match row.fate {
        Fate::OnlyNew => {
            format!("{} is marked PRESERVE and only in the new map: it is not carried", row.name)
        }
        Fate::Unmarked => format!("{} is marked PRESERVE in the new map alone: it is not carried", row.name),
        _ => format!("{} is marked PRESERVE: it is not carried", row.name),
    });
    let overwritten = rows.iter().filter_map(|row| {
        let around = row.overwritten()?;
        Some(format!(
            "{around}, which is carried, holds {} of the new map: its bytes are overwritten",
            row.name
        ))
    });
    unbrought.chain(overwritten).collect()
}
