//! The second implementation on layout texts, under the right rules.

use second::RULES;
use testkit::layout::Calls;

const CALLS: Calls = Calls {
    read: |text, name, size, address, count| second::fmd_read(&RULES, text, name, size, address, count),
    records: |text, records, count| second::fmd_records(&RULES, text, records, count),
    write: |text, image| second::fmd_write(&RULES, text, image),
};

testkit::layout_tests!(CALLS);
