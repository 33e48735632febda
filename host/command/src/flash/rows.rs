//! The areas of two maps as JSON.

use super::fates::Row;
use super::words::{becomes, word};
use crate::json::Json;
use usigrambal::flash::Area;

pub fn json(rows: &[Row]) -> Json {
    rows.iter().map(one).collect()
}

fn one(row: &Row) -> Json {
    let place = |area: &Option<Area>| {
        area.as_ref().map(|area| {
            Json::Object(vec![
                ("offset", u64::from(area.offset).into()),
                ("size", u64::from(area.size).into()),
                ("preserve", area.preserved().into()),
            ])
        })
    };
    let equal = row.equal.map(|equal| if equal { "equal" } else { "differ" });
    Json::Object(vec![
        ("name", row.name.clone().into()),
        ("old", place(&row.old).into()),
        ("new", place(&row.new).into()),
        ("change", row.change().words().into()),
        ("bytes", equal.into()),
        ("fate", word(row).into()),
        ("words", becomes(row).into()),
        ("under", row.under.clone().into()),
    ])
}
