//! The disk samples, as `second_samples` prints them.

use std::process::Command;

#[test]
fn samples_1_to_5_and_9() {
    let output = Command::new(env!("CARGO_BIN_EXE_second_samples")).output().unwrap();
    let printed = String::from_utf8(output.stdout).unwrap();
    let lines: Vec<&str> =
        printed.lines().filter(|line| line.starts_with("disk ") && !line.contains(" crc32 ")).collect();
    assert_eq!(lines, EXPECTED);
}

const EXPECTED: [&str; 37] = [
    // S1.
    "disk 67 format refused 2",
    // S2.
    "disk 68 format",
    "disk 68 header 1 other 67 usable 34 34 entries 2",
    "disk 68 header 67 other 1 usable 34 34 entries 35",
    "disk 68 add 1 slot 1 first 34",
    "disk 68 add 1 refused 25",
    "disk 68 state 1",
    "disk 68 free 0 longest 0",
    "disk 68 granted 1 back 0",
    // S3.
    "disk 100 format",
    "disk 100 header 1 other 99 usable 34 66 entries 2",
    "disk 100 header 99 other 1 usable 34 66 entries 67",
    // S4.
    "disk 100 add 10 slot 1 first 34",
    "disk 100 add 5 slot 2 first 44",
    "disk 100 delete 1",
    "disk 100 add 11 slot 1 first 49",
    "disk 100 add 10 slot 3 first 34",
    "disk 100 state 1",
    "disk 100 free 7 longest 7",
    "disk 100 granted 36 back 10",
    // S5.
    "disk 100 resize 1 19 refused 25",
    "disk 100 resize 1 18",
    "disk 100 state 1",
    "disk 100 free 0 longest 0",
    "disk 100 granted 43 back 10",
    // S9.
    "disk 100 format",
    "disk 100 add 18446744073709551615 refused 25",
    "disk 100 add 33 slot 1 first 34",
    "disk 100 state 1",
    "disk 100 free 0 longest 0",
    "disk 100 granted 33 back 0",
    "disk 4294967296 format",
    "disk 4294967296 add 18446744073709551615 refused 25",
    "disk 4294967296 add 4294967229 slot 1 first 34",
    "disk 4294967296 state 1",
    "disk 4294967296 free 0 longest 0",
    "disk 4294967296 granted 4294967229 back 0",
];
