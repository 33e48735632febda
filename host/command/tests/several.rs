//! Several disks in one call.

mod common;

use common::{disk, spoil, Folder};
use testkit::json::{self, Json};

/// Each disk has its own answer; the exit status is the worst.
#[test]
fn several_disks_in_one_call() {
    let folder = Folder::new();
    let (good, spoiled) = (disk(&folder, "good.img", 100), disk(&folder, "spoiled.img", 100));
    let (empty, missing) = (folder.sparse("empty.img", 51_200), folder.path("missing.img"));
    spoil(&spoiled, 512);
    let ended = run!["gpt", "verify", good, spoiled];
    let lines: Vec<&str> = ended.out.lines().collect();
    assert_eq!((ended.status, lines.len(), ended.err.as_str()), (Some(1), 3, ""), "{}", ended.out);
    assert_eq!(lines[0], format!("{}: both copies are good and the same", good.display()));
    assert!(lines[1].starts_with(&format!("{}: the primary copy is not good", spoiled.display())));
    let ended = run!["gpt", "verify", "--json", good, spoiled, empty, missing, good];
    assert_eq!(ended.status, Some(3));
    let Json::List(answers) = json::parse(&ended.out).expect("JSON") else { panic!("{}", ended.out) };
    let told = |answer: &Json| (answer.at("verified").clone(), answer.at("state").clone());
    let (yes, no) = (Json::Bool(true), Json::Bool(false));
    let expected = [
        (yes.clone(), Json::Number(1)),
        (no.clone(), Json::Number(4)),
        (no.clone(), Json::Null),
        (no, Json::Null),
        (yes, Json::Number(1)),
    ];
    assert_eq!(answers.iter().map(told).collect::<Vec<_>>(), expected);
    let disks: Vec<&str> = answers.iter().map(|answer| answer.text("disk")).collect();
    let paths = [&good, &spoiled, &empty, &missing, &good].map(|path| path.to_str().expect("UTF-8"));
    assert_eq!(disks, paths);
    assert_eq!(answers[2].number("refused"), 10);
    assert!(answers[3].text("error").ends_with("missing.img does not exist"));
    let misused = json::parse(&run!["gpt", "verify", "--json"].out).expect("JSON");
    assert_eq!(told(&misused), (Json::Bool(false), Json::Null));
    assert_eq!(misused.text("error"), "DISK is missing");
    for verb in ["show", "free"] {
        let ended = run!["gpt", verb, good, missing, spoiled];
        assert_eq!(ended.status, Some(3), "{}", ended.err);
        assert_eq!(ended.err, format!("usigrambal: {} does not exist\n", missing.display()));
        let first = run!["gpt", verb, good].done();
        let second = run!["gpt", verb, spoiled].done();
        assert_eq!(ended.out, format!("{first}\n{second}"));
    }
    assert_eq!(run!["gpt", "verify", good, empty].status, Some(1));
    run!["gpt", "repair", good, spoiled].usage("is one operand too many");
    // What was typed wrongly is told once.
    run!["gpt", "show", good, good, "--width", "0"].usage("--width must be 1 to");
}
