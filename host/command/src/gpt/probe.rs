//! What other programs find on a disk: file systems and the like.

use crate::show::printable;
use std::ffi::OsString;
use std::path::Path;
use std::process::{Command, Stdio};

/// A file system, or what else is no partition table, by blkid or wipefs, where one is installed.
pub fn signature(path: &Path) -> Option<String> {
    let blkid = answer("blkid", &["-p", "-o", "export"], path).and_then(|text| exported(&text));
    blkid.or_else(|| answer("wipefs", &["-n", "-p"], path).and_then(|text| listed(&text)))
}

/// What it prints, also where it does not succeed; none where it is not installed.
fn answer(program: &str, options: &[&str], path: &Path) -> Option<String> {
    let mut operand = OsString::from(if path.is_absolute() { "" } else { "./" });
    operand.push(path);
    let run = |program: &str| {
        let mut command = Command::new(program);
        command.args(options).arg(&operand).stdin(Stdio::null()).stderr(Stdio::null()).output().ok()
    };
    let output = ["", "/usr/sbin/", "/sbin/"].iter().find_map(|folder| run(&format!("{folder}{program}")));
    output.map(|output| String::from_utf8_lossy(&output.stdout).into_owned())
}

/// `NAME=value` lines; a character behind a backslash stands for itself.
fn exported(text: &str) -> Option<String> {
    let value = |name: &str| text.lines().find_map(|line| line.strip_prefix(name)?.strip_prefix('='));
    let printable =
        |value: &str| printable(&value.replace("\\\\", "\0").replace('\\', "").replace('\0', "\\"));
    let kind = printable(value("TYPE")?);
    let label = value("LABEL").map_or(String::new(), |label| format!(", labelled \"{}\"", printable(label)));
    Some(match value("USAGE") {
        Some("filesystem") => format!("a file system, {kind}{label}"),
        Some("raid") => format!("a part of an array, {kind}{label}"),
        Some("crypto") => format!("an encrypted volume, {kind}{label}"),
        _ => format!("a signature of {kind}{label}"),
    })
}

/// `offset,uuid,label,type` lines; several where blkid could not decide.
fn listed(text: &str) -> Option<String> {
    let rows = text.lines().filter(|line| !line.starts_with('#'));
    let mut kinds: Vec<&str> = rows.filter_map(|line| line.rsplit(',').next()).collect();
    kinds.retain(|kind| !["", "gpt", "PMBR", "dos"].contains(kind));
    kinds.dedup();
    (!kinds.is_empty()).then(|| format!("signatures of {}", printable(&kinds.join(", "))))
}

#[cfg(test)]
mod tests {
    use super::*;

    #[test]
    fn what_other_programs_print() {
        let said = exported("LABEL=my\\ \\\\pages\nTYPE=ext4\nUSAGE=filesystem\n");
        assert_eq!(said.as_deref(), Some("a file system, ext4, labelled \"my \\\\pages\""));
        let said = exported("DEVNAME=x\nLABEL=pages\nTYPE=ext4\nUSAGE=filesystem\n");
        assert_eq!(said.as_deref(), Some("a file system, ext4, labelled \"pages\""));
        assert_eq!(exported("TYPE=swap\nUSAGE=other\n").as_deref(), Some("a signature of swap"));
        assert_eq!(exported("PTTYPE=gpt\n"), None);
        let said = listed("# offset,uuid,label,type\n0x438,1-2,,ext4\n0x36,,,vfat\n0x1fe,,,dos\n");
        assert_eq!(said.as_deref(), Some("signatures of ext4, vfat"));
        assert_eq!(listed("# offset,uuid,label,type\n0x200,,,gpt\n"), None);
    }
}
