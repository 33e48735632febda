//! On what and when the table was measured.

use std::fs;
use testkit::peer::printed;

/// One line: the day, the processor and how many of it, and how many programs wanted one in the last minute.
pub fn line() -> String {
    let date = printed("date", ["-u", "+%Y-%m-%d"]);
    let count = std::thread::available_parallelism().map_or(1, usize::from);
    let read = |path: &str| fs::read_to_string(path).unwrap_or_default();
    let load = read("/proc/loadavg");
    let load = load.split(' ').next().unwrap_or("");
    format!(
        "{}, {}, processors: {count}, load of the last minute: {load}",
        date.trim(),
        model(&read("/proc/cpuinfo"))
    )
}

fn model(cpuinfo: &str) -> &str {
    let line = cpuinfo.lines().find(|line| line.starts_with("model name"));
    line.and_then(|line| line.split_once(": ")).map_or("unknown processor", |(_, model)| model)
}

#[cfg(test)]
mod tests {
    use super::model;

    #[test]
    fn the_model_is_found() {
        assert_eq!(
            model("vendor_id\t: A\nmodel\t\t: 1\nmodel name\t: A 1 @ 2 GHz\nmodel name\t: B\n"),
            "A 1 @ 2 GHz"
        );
        assert_eq!(model("Features: none\n"), "unknown processor");
    }
}
