//! Published CRC-32 values (crc32.txt; three are derived and say so), and whether a samples program printed them.

/// One line of crc32.txt; its source stands in the file alone.
pub struct Vector {
    pub label: String,
    pub input: Vec<u8>,
    pub crc: u32,
}

pub fn published() -> Vec<Vector> {
    let lines = include_str!("../crc32.txt").lines();
    lines.filter(|line| !line.starts_with('#')).map(vector).collect()
}

fn vector(line: &str) -> Vector {
    let mut fields = line.split(' ');
    let mut field = || fields.next().expect("crc32.txt: label, input, value, source");
    let (label, input, crc) = (field(), field(), field());
    field();
    Vector { label: label.to_string(), input: bytes(input), crc: number(crc) }
}

fn bytes(hex: &str) -> Vec<u8> {
    match hex {
        "-" => Vec::new(),
        _ => hex.as_bytes().chunks(2).map(|pair| number(std::str::from_utf8(pair).unwrap()) as u8).collect(),
    }
}

fn number(hex: &str) -> u32 {
    u32::from_str_radix(hex, 16).expect("crc32.txt: a hex number")
}

/// What is wrong with the `crc32 LABEL CRC` lines of `output`: each label stands there once,
/// with the published value, and no other label does.
pub fn faults(published: &[Vector], output: &str) -> Vec<String> {
    let printed: Vec<&str> = output.lines().filter_map(|line| line.strip_prefix("crc32 ")).collect();
    let expected: Vec<String> = published.iter().map(|v| format!("{} {:08X}", v.label, v.crc)).collect();
    let mut faults = Vec::new();
    for line in &expected {
        match printed.iter().filter(|found| *found == line).count() {
            0 => faults.push(format!("not printed: crc32 {line}")),
            1 => {}
            n => faults.push(format!("printed {n} times: crc32 {line}")),
        }
    }
    let unknown = printed.iter().filter(|found| !expected.iter().any(|line| line == *found));
    faults.extend(unknown.map(|line| format!("not published: crc32 {line}")));
    faults
}

#[cfg(test)]
mod tests {
    use super::*;

    const RIGHT: &str = "crc32 check CBF43926\nguid x refused 30\ncrc32 empty 00000000\n";

    fn two() -> Vec<Vector> {
        vec![vector("check 313233343536373839 CBF43926 Cook"), vector("empty - 00000000 none needed")]
    }

    #[test]
    fn the_file_has_the_check_value() {
        let check = published().into_iter().find(|vector| vector.label == "check").unwrap();
        assert_eq!((check.input, check.crc), (b"123456789".to_vec(), 0xCBF4_3926));
    }

    #[test]
    fn right_output_has_no_fault() {
        assert!(faults(&two(), RIGHT).is_empty());
    }

    #[test]
    fn each_fault_is_named() {
        let wrong = RIGHT.replace("CBF43926", "CBF43927");
        let named = ["not printed: crc32 check CBF43926", "not published: crc32 check CBF43927"];
        assert_eq!(faults(&two(), &wrong), named);
        let twice = format!("{RIGHT}crc32 empty 00000000\n");
        assert_eq!(faults(&two(), &twice), ["printed 2 times: crc32 empty 00000000"]);
        assert_eq!(faults(&two(), "").len(), 2);
    }
}
