//! A small disk image of each block size, and calls on it.

use super::{disk, disk_of_4096, run, Ended, Folder};
use std::ffi::OsStr;
use std::fs;
use std::path::PathBuf;

/// A disk image, and its block size.
pub struct Image {
    pub path: PathBuf,
    pub block: u64,
}

/// With 33 usable blocks each.
pub fn both(folder: &Folder) -> [Image; 2] {
    [
        Image { path: disk(folder, "short.img", 100), block: 512 },
        Image { path: disk_of_4096(folder, "long.img", 44), block: 4096 },
    ]
}

impl Image {
    pub fn text(&self) -> &str {
        self.path.to_str().expect("UTF-8")
    }

    /// `gpt VERB DISK`, more words, and the block size.
    pub fn words<'a>(&'a self, verb: &'a str, more: &[&'a str]) -> Vec<&'a str> {
        let block = if self.block == 512 { "512" } else { "4096" };
        [&["gpt", verb, self.text()], more, &["--block", block]].concat()
    }

    pub fn call(&self, verb: &str, more: &[&str]) -> Ended {
        run(&self.words(verb, more).into_iter().map(OsStr::new).collect::<Vec<_>>())
    }

    pub fn bytes(&self) -> Vec<u8> {
        fs::read(&self.path).expect("an image")
    }
}
