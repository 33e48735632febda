//! The library on layout texts.

use testkit::layout::Calls;
use usigrambal::raw;

const CALLS: Calls = Calls { read: raw::fmd_read, records: raw::fmd_records, write: raw::fmd_write };

testkit::layout_tests!(CALLS);
