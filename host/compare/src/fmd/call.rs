use crate::number::{Answers, Number};
use crate::run::{shown, Cell, Difference, Lent, Outcome, Run};
use second::RULES;
use usigrambal::raw;

pub const NAME_LEN: usize = 32;
pub const RECORD_LEN: usize = 42;
pub const LIST_LEN: usize = 128 * RECORD_LEN;

/// The length of an image for a text that states none.
const ANY_IMAGE: usize = 200;
/// Up to this length a stated image is written, and searched for its map.
const WRITTEN: usize = 1 << 16;

/// All calls with one text, and an image of the size that it states, if that is not large; answers what reading does.
pub fn all(run: &mut Run, text: &[u8]) -> Result<u32, Difference> {
    let (answer, size) = read(run, text, NAME_LEN)?;
    let (_, fmap) = records(run, text, LIST_LEN)?;
    let image_len = size.map_or(ANY_IMAGE, |size| size as usize);
    if image_len <= WRITTEN {
        write(run, text, image_len, fmap)?;
    }
    Ok(answer)
}

/// Answers the number, and the image's size where the text is accepted.
pub fn read(run: &mut Run, text: &[u8], name_len: usize) -> Result<(u32, Option<u64>), Difference> {
    let text_1 = Lent::holding(text, &mut run.random);
    let mut name_1 = Lent::of_length(name_len, &mut run.random);
    let (text_2, mut name_2) = (text_1.clone(), name_1.clone());
    let mut ours = [(); 3].map(|()| Number::new(&mut run.random));
    let mut theirs = ours.clone();
    let [size, address, count] = ours.each_mut().map(Number::answer);
    let library = raw::fmd_read(text_1.bytes(), name_1.bytes_mut(), size, address, count);
    let [size, address, count] = theirs.each_mut().map(Number::answer);
    let second = second::fmd_read(run.rules, text_2.bytes(), name_2.bytes_mut(), size, address, count);
    run.reach("fmd_read", Cell::Answer(library));
    let size = (library == 0).then(|| ours[0].value());
    let arguments = || format!("{}, {name_len} bytes", shown(text));
    let buffers = [Lent::pair("text", &text_1, &text_2), Lent::pair("name", &name_1, &name_2)];
    run.compare("fmd_read", arguments, (Answers(library, ours), Answers(second, theirs)), &buffers)?;
    Ok((library, size))
}

/// Answers the number, and the position of section FMAP where the text is accepted.
pub fn records(run: &mut Run, text: &[u8], list_len: usize) -> Result<(u32, Option<usize>), Difference> {
    let text_1 = Lent::holding(text, &mut run.random);
    let mut list_1 = Lent::of_length(list_len, &mut run.random);
    let (text_2, mut list_2) = (text_1.clone(), list_1.clone());
    let mut count_1 = Number::new(&mut run.random);
    let mut count_2 = count_1.clone();
    let library = raw::fmd_records(text_1.bytes(), list_1.bytes_mut(), count_1.answer());
    let second = second::fmd_records(run.rules, text_2.bytes(), list_2.bytes_mut(), count_2.answer());
    run.reach("fmd_records", Cell::Answer(library));
    let fmap = (library == 0).then(|| fmap_in(list_1.bytes())).flatten();
    let arguments = || format!("{}, {list_len} bytes", shown(text));
    let buffers = [Lent::pair("text", &text_1, &text_2), Lent::pair("records", &list_1, &list_2)];
    let answers = (Answers(library, [count_1]), Answers(second, [count_2]));
    run.compare("fmd_records", arguments, answers, &buffers)?;
    Ok((library, fmap))
}

/// The position in the record of section FMAP.
fn fmap_in(records: &[u8]) -> Option<usize> {
    let is_fmap = |record: &&[u8]| record[8..].starts_with(b"FMAP\0");
    let record = records.chunks(RECORD_LEN).find(is_fmap)?;
    Some(u32::from_le_bytes(record[..4].try_into().expect("4 bytes")) as usize)
}

/// Writes the map into an image of random bytes; `fmap` is where section FMAP lies.
pub fn write(run: &mut Run, text: &[u8], image_len: usize, fmap: Option<usize>) -> Result<u32, Difference> {
    let text_1 = Lent::holding(text, &mut run.random);
    let mut image_1 = Lent::of_length(image_len, &mut run.random);
    let (text_2, mut image_2) = (text_1.clone(), image_1.clone());
    let library = raw::fmd_write(text_1.bytes(), image_1.bytes_mut());
    let second = second::fmd_write(run.rules, text_2.bytes(), image_2.bytes_mut());
    run.reach("fmd_write", Cell::Answer(library));
    let arguments = || format!("{}, an image of {image_len} bytes", shown(text));
    let buffers = [Lent::pair("text", &text_1, &text_2), Lent::pair("image", &image_1, &image_2)];
    run.compare("fmd_write", arguments, (library, second), &buffers)?;
    if let Some(fmap) = fmap.filter(|_| library == 0) {
        found_again(text, image_1.bytes(), fmap)?;
    }
    Ok(library)
}

/// L19: random bytes hold no lower good map.
fn found_again(text: &[u8], image: &[u8], fmap: usize) -> Outcome {
    let mut position = 0;
    let answer = second::fmap_find(&RULES, image, &mut position);
    if (answer, position) == (0, fmap as u64) {
        return Ok(());
    }
    let what = format!("the map at {fmap} is not found, but {answer}, {position}");
    Err(Difference::new(format!("fmd_write({}): {what}", shown(text))))
}
