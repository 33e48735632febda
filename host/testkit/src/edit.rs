//! Edits of a partition table, as each tool makes them.

use crate::listing::Partition;
use crate::peer::{feed, printed};
use std::path::Path;

/// An edit; a partition stands for its slot and what is then in it.
#[derive(Clone, Debug)]
pub enum Edit {
    Add(Partition),
    Delete(u64),
    Rename(u64, String),
    Resize(Partition),
}

/// By one call of `sgdisk`, which waits a second after it has written.
pub fn sgdisk(image: &Path, edits: &[Edit]) {
    let mut arguments = vec!["-a".to_string(), "1".into()];
    arguments.extend(edits.iter().flat_map(sgdisk_options));
    arguments.push(text(image));
    printed("sgdisk", arguments);
}

fn sgdisk_options(edit: &Edit) -> Vec<String> {
    match edit {
        Edit::Add(new) => sgdisk_new(new),
        Edit::Delete(slot) => vec!["-d".into(), slot.to_string()],
        Edit::Rename(slot, name) => vec!["-c".into(), format!("{slot}:{name}")],
        // It can't resize: the partition is made anew, with all that it had.
        Edit::Resize(new) => [sgdisk_options(&Edit::Delete(new.slot)), sgdisk_new(new)].concat(),
    }
}

fn sgdisk_new(new: &Partition) -> Vec<String> {
    let Partition { slot, first, last, kind, unique, attributes, name } = new;
    let mut options = Vec::new();
    for (option, value) in [
        ("-n", format!("{slot}:{first}:{last}")),
        ("-t", format!("{slot}:{kind}")),
        ("-u", format!("{slot}:{unique}")),
        ("-c", format!("{slot}:{name}")),
        ("-A", format!("{slot}:=:{attributes:016X}")),
    ] {
        options.extend([option.to_string(), value]);
    }
    options
}

/// By a call of `sfdisk`.
pub fn sfdisk(image: &Path, edit: &Edit) {
    let image = text(image);
    match edit {
        Edit::Add(new) => feed("sfdisk", ["-q", "--append", &image], &sfdisk_line(new)),
        Edit::Delete(slot) => drop(printed("sfdisk", ["-q", "--delete", &image, &slot.to_string()])),
        Edit::Rename(slot, name) => {
            printed("sfdisk", ["-q", "--part-label", &image, &slot.to_string(), name]);
        }
        Edit::Resize(new) => {
            let size = format!(", {}\n", new.last - new.first + 1);
            feed("sfdisk", ["-q", "-N", &new.slot.to_string(), &image], &size);
        }
    }
}

/// A line of sfdisk's script.
pub fn sfdisk_line(new: &Partition) -> String {
    let Partition { slot, first, last, kind, unique, attributes, name } = new;
    let size = last - first + 1;
    let attributes = sfdisk_attributes(*attributes);
    format!("{slot}: start={first}, size={size}, type={kind}, uuid={unique}, name=\"{name}\"{attributes}\n")
}

/// It has words for bits 0 to 2 and 48 to 63.
fn sfdisk_attributes(bits: u64) -> String {
    let word = |bit: u32| match bit {
        0 => "RequiredPartition".to_string(),
        1 => "NoBlockIOProtocol".to_string(),
        2 => "LegacyBIOSBootable".to_string(),
        bit => format!("GUID:{bit}"),
    };
    let words: Vec<String> = (0..64).filter(|bit| bits >> bit & 1 == 1).map(word).collect();
    if words.is_empty() {
        return String::new();
    }
    format!(", attrs=\"{}\"", words.join(","))
}

/// By calls of `cgpt`.
pub fn cgpt(image: &Path, edit: &Edit) {
    let add = |slot: &u64, options: &[(&str, String)]| {
        let options = options.iter().flat_map(|(option, value)| [option.to_string(), value.clone()]);
        let start = ["add".to_string(), "-i".into(), slot.to_string()];
        printed("cgpt", start.into_iter().chain(options).chain([text(image)]));
    };
    match edit {
        Edit::Add(new) => {
            let Partition { slot, first, last, kind, unique, attributes, name } = new;
            add(
                slot,
                &[
                    ("-b", first.to_string()),
                    ("-s", (last - first + 1).to_string()),
                    ("-t", kind.clone()),
                    ("-u", unique.clone()),
                    ("-l", name.clone()),
                    ("-A", (attributes >> 48).to_string()),
                ],
            );
            // Beside -A these options do nothing.
            add(slot, &[("-R", (attributes & 1).to_string()), ("-B", (attributes >> 2 & 1).to_string())]);
        }
        Edit::Delete(slot) => add(slot, &[("-t", "unused".into())]),
        Edit::Rename(slot, name) => add(slot, &[("-l", name.clone())]),
        Edit::Resize(new) => add(&new.slot, &[("-s", (new.last - new.first + 1).to_string())]),
    }
}

fn text(path: &Path) -> String {
    path.to_str().expect("a path in UTF-8").to_string()
}
