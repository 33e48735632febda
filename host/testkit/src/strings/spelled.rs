//! The ways to spell a layout string.

use super::{LayoutString, Partition};
use crate::random::Random;

const SUFFIXES: [(u32, &str); 4] = [(0, ""), (10, "KiB"), (20, "MiB"), (30, "GiB")];

/// A number of bytes in one of its spellings.
pub fn number(value: u64, random: &mut Random) -> String {
    let whole: Vec<_> = SUFFIXES.into_iter().filter(|(shift, _)| value >> shift << shift == value).collect();
    let (shift, suffix) = random.pick(&whole);
    let zeros = random.pick(&[0, 0, 0, 1, 3, 25]);
    format!("{}{}{suffix}", "0".repeat(zeros), value >> shift)
}

/// With the largest suffix that leaves it whole; 0 without one.
pub fn plain_number(value: u64) -> String {
    let whole = |(shift, _): &&(u32, &str)| value != 0 && value >> shift << shift == value;
    let (shift, suffix) = SUFFIXES.iter().rev().find(whole).unwrap_or(&SUFFIXES[0]);
    format!("{}{suffix}", value >> shift)
}

impl Partition {
    /// Its fields, in the order of document 004, numbers spelled by `spell`.
    fn fields(&self, mut spell: impl FnMut(u64) -> String) -> Vec<String> {
        let mut fields = vec![format!("name={}", self.name)];
        fields.extend(self.start.map(|start| format!("start={}", spell(start))));
        fields.push(format!("size={}", spell(self.size)));
        fields.push(format!("uuid={}", self.unique));
        fields.extend(self.kind.as_ref().map(|kind| format!("type={kind}")));
        fields.extend(self.bootable.then(|| "bootable".to_string()));
        fields
    }
}

impl LayoutString {
    /// The fields of each partition in any order, numbers in any spelling.
    pub fn fields(&self, random: &mut Random) -> Vec<Vec<String>> {
        let mut partitions = Vec::new();
        for partition in &self.partitions {
            let mut fields = partition.fields(|value| number(value, random));
            for k in (1..fields.len()).rev() {
                fields.swap(k, random.below(k + 1));
            }
            partitions.push(fields);
        }
        partitions
    }

    /// In any of its spellings, with a last semicolon or without one.
    pub fn text(&self, random: &mut Random) -> String {
        let fields = self.fields(random);
        let end = random.pick(&["", ";"]);
        self.joined(&fields) + end
    }

    /// In the order of document 004, with the largest suffixes.
    pub fn plain(&self) -> String {
        let fields: Vec<_> = self.partitions.iter().map(|partition| partition.fields(plain_number)).collect();
        self.joined(&fields) + ";"
    }

    /// The string of these fields.
    pub fn joined(&self, fields: &[Vec<String>]) -> String {
        let partitions: String = fields.iter().map(|fields| format!(";{}", fields.join(","))).collect();
        format!("uuid_disk={}{partitions}", self.disk_guid)
    }
}

#[cfg(test)]
mod tests {
    use super::*;
    use std::collections::BTreeSet;

    #[test]
    fn numbers_are_spelled_in_many_ways() {
        let mut random = Random::new(5);
        let spelled: BTreeSet<String> = (0..300).map(|_| number(1 << 20, &mut random)).collect();
        for spelling in ["1048576", "1024KiB", "1MiB", "01MiB"] {
            assert!(spelled.contains(spelling));
        }
        let plain = [0, 512, 1536, 1 << 20, 3 << 30].map(plain_number);
        assert_eq!(plain, ["0", "512", "1536", "1MiB", "3GiB"]);
    }
}
