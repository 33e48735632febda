//! Where the partitions of a layout string stand.

use crate::topic::{variant, Variant};
use second::rules::{Open, OpenFrom, OpenTo, StartJudged, StartSlip, StringRules};

const OPEN: [Open; 6] = [
    Open::Never,
    Open::Any,
    Open::LastWithStart,
    Open::LastWithoutStart,
    Open::LastBeforeSemicolon,
    Open::LastWithoutSemicolon,
];

/// Where size 0 without a start begins, and the sentence that it breaks.
const OPEN_FROM: [(OpenFrom, &str); 4] = [
    (OpenFrom::AnyBlock, "e3"),
    (OpenFrom::LongestRun, "b7"),
    (OpenFrom::LastRun, "b7"),
    (OpenFrom::BehindOthers, "b7"),
];

const OPEN_TO: [OpenTo; 4] = [OpenTo::LastUsable, OpenTo::OneBlock, OpenTo::OneLess, OpenTo::OneMore];

const STARTS: [(StartSlip, &str); 6] = [
    (StartSlip::RoundedUp, "e3"),
    (StartSlip::Ignored, "b8"),
    (StartSlip::ZeroOmitted, "b8"),
    (StartSlip::InBlocks, "b8"),
    (StartSlip::FromFirstUsable, "b8"),
    (StartSlip::OneLater, "b8"),
];

const JUDGED: [StartJudged; 3] = [StartJudged::Usable, StartJudged::Untaken, StartJudged::WholeRange];

pub fn variants() -> Vec<Variant> {
    let of = |name: String, rule, change: &dyn Fn(&mut StringRules)| {
        variant(name, rule, |r| change(&mut r.gpt.strings))
    };
    let open = OPEN.map(|open| of(format!("size-0-open-{open:?}"), "b7", &|s| s.open = open));
    let from =
        OPEN_FROM.map(|(from, rule)| of(format!("size-0-from-{from:?}"), rule, &|s| s.open_from = from));
    let to = OPEN_TO.map(|to| of(format!("size-0-to-{to:?}"), "b7", &|s| s.open_to = to));
    let starts =
        STARTS.map(|(slip, rule)| of(format!("start-{slip:?}"), rule, &|s| s.start_slip = Some(slip)));
    let judged =
        JUDGED.map(|judged| of(format!("start-judged-{judged:?}"), "b10", &|s| s.start_judged = judged));
    let whole = [512, 4096, 1, 1024]
        .map(|bytes| of(format!("multiples-of-{bytes}"), "l5", &|s| s.whole_of = Some(bytes)));
    let rest = [
        of("size-0-without-room-is-20".into(), "b7", &|s| s.open_without_room_is_size_0 = true),
        of("start-not-whole".into(), "b10", &|s| s.start_whole = false),
        of("size-not-whole".into(), "b10", &|s| s.size_whole = false),
        of("alignment-unjudged-with-a-start".into(), "e2", &|s| s.alignment_with_start_judged = false),
    ];
    open.into_iter().chain(from).chain(to).chain(starts).chain(judged).chain(whole).chain(rest).collect()
}
