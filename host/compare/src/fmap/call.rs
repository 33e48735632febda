use super::kinds;
use crate::number::{Answers, Number};
use crate::run::{Cell, Lent, Outcome, Run};
use testkit::flash::AREA_LEN;
use usigrambal::raw;

/// How many bytes of an image a difference shows.
const SHOWN: usize = 4096;

/// The calls that look into one image: finding, areas in and past the map, names.
pub fn look(run: &mut Run, image: &[u8], names: &[&[u8]]) -> Outcome {
    find(run, image)?;
    let any = run.random.number_below(8);
    for k in [0, any, 127, 128, 1 << 32, u64::MAX] {
        area(run, image, k, AREA_LEN)?;
    }
    names.iter().try_for_each(|name| named(run, image, name))
}

pub fn find(run: &mut Run, image: &[u8]) -> Outcome {
    let lent = Lent::holding(image, &mut run.random);
    let (ours, theirs) = (lent.clone(), lent);
    let mut position_1 = Number::new(&mut run.random);
    let mut position_2 = position_1.clone();
    let library = raw::fmap_find(ours.bytes(), position_1.answer());
    let second = second::fmap_find(run.rules, theirs.bytes(), position_2.answer());
    run.reach("fmap_find", Cell::Answer(library));
    let found = (library == 0).then_some(position_1.value());
    kinds::of_image(image, found).into_iter().for_each(|kind| run.reach("fmap_find", kind));
    let answers = (Answers(library, [position_1]), Answers(second, [position_2]));
    run.compare("fmap_find", || shown(image), answers, &[Lent::pair("image", &ours, &theirs)])
}

pub fn fault(run: &mut Run, image: &[u8], position: u64) -> Outcome {
    let lent = Lent::holding(image, &mut run.random);
    let (ours, theirs) = (lent.clone(), lent);
    let mut rule_1 = Number::new(&mut run.random);
    let mut rule_2 = rule_1.clone();
    let library = raw::fmap_fault(ours.bytes(), position, rule_1.answer());
    let second = second::fmap_fault(run.rules, theirs.bytes(), position, rule_2.answer());
    run.reach("fmap_fault", Cell::Answer(library));
    if library == 0 {
        run.reach("fmap_fault", Cell::Rule(rule_1.value()));
    }
    let arguments = || format!("{}, position {position}", shown(image));
    let answers = (Answers(library, [rule_1]), Answers(second, [rule_2]));
    run.compare("fmap_fault", arguments, answers, &[Lent::pair("image", &ours, &theirs)])
}

pub fn area(run: &mut Run, image: &[u8], k: u64, length: usize) -> Outcome {
    let lent = Lent::holding(image, &mut run.random);
    let (ours, theirs) = (lent.clone(), lent);
    let mut area_1 = Lent::of_length(length, &mut run.random);
    let mut area_2 = area_1.clone();
    let library = raw::fmap_area(ours.bytes(), k, area_1.bytes_mut());
    let second = second::fmap_area(run.rules, theirs.bytes(), k, area_2.bytes_mut());
    run.reach("fmap_area", Cell::Answer(library));
    let arguments = || format!("{}, k {k}, {length} bytes", shown(image));
    let buffers = [Lent::pair("image", &ours, &theirs), Lent::pair("area", &area_1, &area_2)];
    run.compare("fmap_area", arguments, (library, second), &buffers)
}

pub fn named(run: &mut Run, image: &[u8], name: &[u8]) -> Outcome {
    let lent = Lent::holding(image, &mut run.random);
    let (ours, theirs) = (lent.clone(), lent);
    let name_1 = Lent::holding(name, &mut run.random);
    let name_2 = name_1.clone();
    let mut k_1 = Number::new(&mut run.random);
    let mut k_2 = k_1.clone();
    let library = raw::fmap_named(ours.bytes(), name_1.bytes(), k_1.answer());
    let second = second::fmap_named(run.rules, theirs.bytes(), name_2.bytes(), k_2.answer());
    run.reach("fmap_named", Cell::Answer(library));
    let arguments = || format!("{}, \"{}\"", shown(image), name.escape_ascii());
    let buffers = [Lent::pair("image", &ours, &theirs), Lent::pair("name", &name_1, &name_2)];
    run.compare("fmap_named", arguments, (Answers(library, [k_1]), Answers(second, [k_2])), &buffers)
}

pub fn carry(run: &mut Run, old: &[u8], new: &[u8]) -> Outcome {
    let old_1 = Lent::holding(old, &mut run.random);
    let mut new_1 = Lent::holding(new, &mut run.random);
    let (old_2, mut new_2) = (old_1.clone(), new_1.clone());
    let library = raw::fmap_carry(old_1.bytes(), new_1.bytes_mut());
    let second = second::fmap_carry(run.rules, old_2.bytes(), new_2.bytes_mut());
    note(run, old, library);
    kinds::of_carry(old, new).into_iter().for_each(|kind| run.reach("fmap_carry", kind));
    let arguments = || format!("old {}, new {}", shown(old), shown(new));
    let buffers = [Lent::pair("old", &old_1, &old_2), Lent::pair("new", &new_1, &new_2)];
    run.compare("fmap_carry", arguments, (library, second), &buffers)
}

/// 40 to 42 are about the new image where the old one is found.
fn note(run: &mut Run, old: &[u8], answer: u32) {
    run.reach("fmap_carry", Cell::Answer(answer));
    if (40..=42).contains(&answer) {
        let old_found = raw::fmap_find(old, &mut 0) == 0;
        run.reach("fmap_carry", Cell::By(answer, if old_found { "new" } else { "old" }));
    }
}

/// Length, and the bytes around the first signature.
fn shown(image: &[u8]) -> String {
    let at = image.windows(8).position(|bytes| bytes == b"__FMAP__").unwrap_or(0);
    let end = (at + SHOWN).min(image.len());
    let map: String = image[at..end].iter().take(98).map(|byte| format!("{byte:02X}")).collect();
    format!("{} bytes, from {at} on {map}", image.len())
}
