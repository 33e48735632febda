//! What the tests are made of: other tools, bytes that they made (`fixtures/`), drawn inputs.

pub mod device;
pub mod disk;
pub mod disk_calls;
pub mod edit;
pub mod fixture;
pub mod flash;
pub mod flash_calls;
pub mod fmaptool;
pub mod json;
pub mod layout;
pub mod listing;
pub mod peer;
pub mod random;
pub mod strings;
pub mod vectors;

use std::io::Write;
use std::path::{Path, PathBuf};

/// Folder `host` of the repository.
pub fn host() -> PathBuf {
    Path::new(env!("CARGO_MANIFEST_DIR")).join("..")
}

/// Tells what a test passes over, past its own output, which is not shown where it passes.
pub fn skipped(what: &str) {
    let _ = writeln!(std::io::stdout(), "skipped: {what}");
}

/// What a call that answers 0 or a refusal's number came to.
pub fn answered<T>(number: u32, value: T) -> Result<T, u32> {
    match number {
        0 => Ok(value),
        number => Err(number),
    }
}

/// A test by each of these functions of a module, which hold the calls to something.
#[macro_export]
macro_rules! tests {
    ($module:ident, $calls:expr, [$($name:ident),+ $(,)?]) => {
        $(#[test]
        fn $name() {
            $crate::$module::$name(&$calls);
        })+
    };
}
