//! The flash map calls of the second implementation, under the right rules.

use second::RULES;
use testkit::flash_calls::Calls;
use testkit::{answered, fixture};

const CALLS: Calls = Calls {
    find: |image| {
        let mut position = 0;
        answered(second::fmap_find(&RULES, image, &mut position), position)
    },
    area: |image, k| {
        let mut area = [0; 42];
        answered(second::fmap_area(&RULES, image, k, &mut area), area)
    },
    named: |image, name| {
        let mut k = 0;
        answered(second::fmap_named(&RULES, image, name, &mut k), k)
    },
    carry: |old, new| answered(second::fmap_carry(&RULES, old, new), ()),
};

testkit::flash_tests!(CALLS);

#[test]
fn the_areas_are_counted() {
    for path in fixture::files("fmap", "flash") {
        let fixture = fixture::flash(&path).expect("a fixture");
        let mut count = 0;
        let number = second::fmap_area_count(&RULES, &fixture.image, &mut count);
        assert_eq!(answered(number, count), fixture.reads_as.map(|_| fixture.areas.len() as u64));
    }
}
