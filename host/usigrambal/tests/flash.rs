//! The flash map calls of the library, on the images that other tools made and beside those tools.

use testkit::answered;
use testkit::flash_calls::Calls;
use usigrambal::raw;

const CALLS: Calls = Calls {
    find: |image| {
        let mut position = 0;
        answered(raw::fmap_find(image, &mut position), position)
    },
    area: |image, k| {
        let mut area = [0; 42];
        answered(raw::fmap_area(image, k, &mut area), area)
    },
    named: |image, name| {
        let mut k = 0;
        answered(raw::fmap_named(image, name, &mut k), k)
    },
    carry: |old, new| answered(raw::fmap_carry(old, new), ()),
};

testkit::flash_tests!(CALLS);
