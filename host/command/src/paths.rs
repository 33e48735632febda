//! Paths, as they are shown and as they stand in an advised command.

use std::os::unix::ffi::OsStrExt;
use std::path::Path;

/// A path for a terminal: control characters and what is no UTF-8 are escaped, and one without any character is seen.
pub fn shown(path: &Path) -> String {
    if path.as_os_str().is_empty() {
        return "''".to_string();
    }
    escaped(path, |c| if c.is_control() { c.escape_debug().to_string() } else { c.to_string() })
}

/// Each character as it is told, and each byte that is no UTF-8 by its hex digits.
fn escaped(path: &Path, told: impl Fn(char) -> String) -> String {
    let mut text = String::new();
    for chunk in path.as_os_str().as_bytes().utf8_chunks() {
        text.extend(chunk.valid().chars().map(&told));
        text.extend(chunk.invalid().iter().map(|byte| format!("\\x{byte:02x}")));
    }
    text
}

/// A path as a word of a shell's command line: as it is where it is plain, else in quotation marks, and with `$'…'` where
/// it has control characters or is no UTF-8. One that begins with - is no option then.
pub fn quoted(path: &Path) -> String {
    let bytes = path.as_os_str().as_bytes();
    let here = if bytes.starts_with(b"-") { "./" } else { "" };
    let odd = !path.to_str().is_some_and(|text| text.chars().all(|c| !c.is_control()));
    if odd {
        let told = |c: char| match c {
            '\\' | '\'' => format!("\\{c}"),
            c if c.is_control() => c.to_string().bytes().map(|byte| format!("\\x{byte:02x}")).collect(),
            c => c.to_string(),
        };
        return format!("$'{here}{}'", escaped(path, told));
    }
    let text = format!("{here}{}", path.display());
    let plain = |c: char| c.is_alphanumeric() || "/._-+,:@%".contains(c);
    match !text.is_empty() && text.chars().all(plain) {
        true => text,
        false => format!("'{}'", text.replace('\'', "'\\''")),
    }
}

#[cfg(test)]
mod tests {
    use super::*;
    use std::ffi::OsStr;
    use std::process::Command;

    const NAMES: [&[u8]; 13] = [
        b"disk.img",
        b"/dev/sdb",
        b"my disk.img",
        b"it's",
        b"a$HOME`x`\"",
        b"-f",
        b"",
        b"~",
        b"a\nb'\\",
        b"\x1b[2J",
        b"\xFFx'",
        "Größe".as_bytes(),
        "a\u{9b}7".as_bytes(),
    ];

    #[test]
    fn a_quoted_path_is_one_word_of_a_shell() {
        for name in NAMES {
            let line = format!("printf %s {}", quoted(Path::new(OsStr::from_bytes(name))));
            let printed =
                Command::new("bash").args(["-c", &line]).env("LC_ALL", "C.UTF-8").output().expect("bash");
            let expected = if name == b"-f" { b"./-f" } else { name };
            assert_eq!(printed.stdout, expected, "{line}");
        }
        assert_eq!(quoted(Path::new("/tmp/disk-1.img")), "/tmp/disk-1.img");
    }

    #[test]
    fn control_characters_are_shown_escaped() {
        let shown = |name: &'static [u8]| super::shown(Path::new(OsStr::from_bytes(name)));
        assert_eq!(shown(b"my disk.img"), "my disk.img");
        assert_eq!(shown(b""), "''");
        assert_eq!(shown(b"a\n\x1b[2J\xFF"), "a\\n\\u{1b}[2J\\xff");
        assert_eq!(shown("Größe\u{9b}".as_bytes()), "Größe\\u{9b}");
    }
}
