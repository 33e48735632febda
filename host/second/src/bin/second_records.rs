//! Lends a section list of 128 records that hold a known pattern (L16): for sample 10's text, then for one that the
//! last row refuses. Of each: `accepted` and the number of sections, or `refused` and the number; then all 128 records.

use second::listing::{all_records, SAMPLE_10, TOO_SMALL};
use std::io::{self, Write};

fn main() -> io::Result<()> {
    let mut out = io::stdout().lock();
    for text in [SAMPLE_10, TOO_SMALL] {
        out.write_all(all_records(text.as_bytes()).as_bytes())?;
    }
    Ok(())
}
