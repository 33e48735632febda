//! Other tools that the tests compare with.

use std::ffi::OsStr;
use std::io::Write;
use std::process::{Command, Output, Stdio};
use std::sync::Mutex;

/// Whether the tool is there, by `tests/peer`; fails where that fails.
pub fn present(tool: &str, package: &str) -> bool {
    // One at a time: it may install the package.
    static ALONE: Mutex<()> = Mutex::new(());
    let _alone = ALONE.lock().unwrap_or_else(|poisoned| poisoned.into_inner());
    let finder = crate::host().join("../tests/peer");
    let status = Command::new(&finder).args([tool, package, tool]).status();
    match status.unwrap_or_else(|error| panic!("{}: {error}", finder.display())).code() {
        Some(0) => true,
        Some(3) => false,
        code => panic!("{tool} of Debian's {package} is missing ({code:?})"),
    }
}

/// Runs a tool to its end.
pub fn run(tool: &str, arguments: impl IntoIterator<Item = impl AsRef<OsStr>>) -> Output {
    Command::new(tool).args(arguments).output().unwrap_or_else(|error| panic!("{tool}: {error}"))
}

/// What a tool that succeeds prints to standard output.
pub fn printed(tool: &str, arguments: impl IntoIterator<Item = impl AsRef<OsStr>>) -> String {
    let output = run(tool, arguments);
    let (out, err) = (String::from_utf8_lossy(&output.stdout), String::from_utf8_lossy(&output.stderr));
    assert!(output.status.success(), "{tool}: {}\n{out}{err}", output.status);
    out.into_owned()
}

/// Runs a tool that reads standard input, to success.
pub fn feed(tool: &str, arguments: impl IntoIterator<Item = impl AsRef<OsStr>>, input: &str) {
    let mut command = Command::new(tool);
    let mut child = command
        .args(arguments)
        .stdin(Stdio::piped())
        .stdout(Stdio::piped())
        .stderr(Stdio::piped())
        .spawn()
        .unwrap_or_else(|error| panic!("{tool}: {error}"));
    let mut stdin = child.stdin.take().expect("a pipe");
    stdin.write_all(input.as_bytes()).unwrap_or_else(|error| panic!("{tool}: {error}"));
    drop(stdin);
    let output = child.wait_with_output().unwrap_or_else(|error| panic!("{tool}: {error}"));
    let said = String::from_utf8_lossy(&output.stderr);
    assert!(output.status.success(), "{tool}: {}\n{said}", output.status);
}
