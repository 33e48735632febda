//! Each way in which a text is refused, alone and with each other way, in both orders. What two ways together must
//! give is known from the rules' order, and both sides are held to it.

use super::call::{self, LIST_LEN, NAME_LEN, RECORD_LEN};
use super::draft::Draft;
use super::ways::WAYS;
use crate::run::{shown, Cell, Difference, Outcome, Run};

const ROUNDS: usize = 3;

/// Each way alone.
pub fn each(run: &mut Run) -> Outcome {
    for _ in 0..ROUNDS {
        for way in WAYS {
            let draft = Draft::of(&[way], &mut run.random);
            let answer = judged(run, &draft)?;
            run.reach("fmd", Cell::By(answer, way.name));
        }
        let good = Draft::of(&[], &mut run.random);
        judged(run, &good)?;
    }
    Ok(())
}

/// Each two ways that one text can have, each of them first.
pub fn each_two(run: &mut Run) -> Outcome {
    for first in WAYS {
        for second in WAYS.iter().filter(|second| first.beside(second)) {
            let draft = Draft::of(&[first, second], &mut run.random);
            judged(run, &draft)?;
        }
    }
    Ok(())
}

/// Each way with each lent buffer of a wrong length: 1 comes first, but for the image it comes last (R34).
pub fn lengths(run: &mut Run) -> Outcome {
    for way in WAYS {
        let Draft { text, number } = Draft::of(&[way], &mut run.random);
        let (name_len, list_len) = (run.random.below(NAME_LEN), run.random.below(LIST_LEN));
        name_of(run, &text, name_len)?;
        for list_len in [list_len, LIST_LEN - 1, LIST_LEN + 1, 128] {
            list_of(run, &text, list_len)?;
        }
        demand(&text, call::write(run, &text, 0, None)?, number)?;
    }
    let text = Draft::of(&[], &mut run.random).text;
    for name_len in (0..70).filter(|len| *len != NAME_LEN) {
        name_of(run, &text, name_len)?;
    }
    for records in (0..=130).filter(|records| records * RECORD_LEN != LIST_LEN) {
        list_of(run, &text, records * RECORD_LEN)?;
    }
    let size = call::read(run, &text, NAME_LEN)?.1.unwrap_or(0) as usize;
    for image_len in [0, 1, 98, size - 1, size + 1, 2 * size] {
        let answer = call::write(run, &text, image_len, None)?;
        demand(&text, answer, 1)?;
        run.reach("fmd", Cell::By(answer, "the image"));
    }
    Ok(())
}

fn name_of(run: &mut Run, text: &[u8], name_len: usize) -> Outcome {
    let answer = call::read(run, text, name_len)?.0;
    run.reach("fmd", Cell::By(answer, "the name's buffer"));
    demand(text, answer, 1)
}

fn list_of(run: &mut Run, text: &[u8], list_len: usize) -> Outcome {
    let answer = call::records(run, text, list_len)?.0;
    run.reach("fmd", Cell::By(answer, "the section list"));
    demand(text, answer, 1)
}

fn judged(run: &mut Run, draft: &Draft) -> Result<u32, Difference> {
    let answer = call::all(run, &draft.text)?;
    demand(&draft.text, answer, draft.number)?;
    Ok(answer)
}

fn demand(text: &[u8], answer: u32, number: u32) -> Outcome {
    if answer == number {
        return Ok(());
    }
    Err(Difference::new(format!("fmd({}): both answer {answer}, not {number}", shown(text))))
}
