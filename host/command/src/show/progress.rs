use crate::sizes::human;
use std::io::{self, IsTerminal, Write};

const WIDTH: usize = 40;

/// A bar on standard error, where that is a terminal, for writes that take a while.
pub struct Progress {
    shown: bool,
}

impl Progress {
    pub fn new() -> Progress {
        Progress { shown: io::stderr().is_terminal() }
    }

    pub fn tell(&self, done: usize, all: usize) {
        if self.shown {
            let _ = write!(io::stderr(), "\r{}\u{1b}[K", line(done as u64, all as u64));
        }
    }
}

/// The line is wiped: what follows begins in its place.
impl Drop for Progress {
    fn drop(&mut self) {
        if self.shown {
            let _ = write!(io::stderr(), "\r\u{1b}[K");
        }
    }
}

/// `[##########..............................]  25 %, 4 MiB of 16 MiB`
fn line(done: u64, all: u64) -> String {
    let part = |whole: u64| (done * whole).checked_div(all).unwrap_or(whole);
    let full = "#".repeat(part(WIDTH as u64) as usize);
    format!("[{full:.<WIDTH$}] {:3} %, {} of {}", part(100), human(done), human(all))
}

#[cfg(test)]
mod tests {
    use super::line;

    #[test]
    fn a_bar_to_scale() {
        let expected = "[##########..............................]  25 %, 4 MiB of 16 MiB";
        assert_eq!(line(4 << 20, 16 << 20), expected);
        assert!(line(0, 9).starts_with("[......"));
        assert!(line(9, 9).contains("######] 100 %"));
    }
}
