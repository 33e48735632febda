use std::fs::File;
use std::io;
use std::os::unix::fs::FileExt;

/// How many bytes are written before they are flushed.
const PIECE: usize = 1 << 20;
/// Changes that are at most so far apart are one run: a few bytes more take less time than another write.
const NEAR: usize = 4096;

/// A write that did not get to its end.
#[derive(Debug)]
pub struct Unwritten {
    pub written: usize,
    pub wanted: usize,
    pub error: io::Error,
}

impl Unwritten {
    /// `8192 of 17408 bytes were written: No space left on device`
    pub fn words(&self) -> String {
        let Unwritten { written, wanted, error } = self;
        let said = crate::failure::words(error);
        match *written {
            0 => said,
            all if all == *wanted => format!("{said}, when its bytes were to be flushed"),
            some => format!("{some} of {wanted} bytes were written, then: {said}"),
        }
    }
}

/// Writes runs of an image, which begins at that place, and flushes them to the medium.
pub fn put(file: &File, image: &[u8], at: u64, runs: &[(usize, usize)]) -> Result<(), Unwritten> {
    put_told(file, image, at, runs, |_, _| {})
}

/// The same; `tell` is told after each piece how many bytes are written, and of how many.
pub fn put_told(
    file: &File,
    image: &[u8],
    at: u64,
    runs: &[(usize, usize)],
    mut tell: impl FnMut(usize, usize),
) -> Result<(), Unwritten> {
    let wanted = runs.iter().map(|(start, end)| end - start).sum();
    let (mut written, mut flushed) = (0, 0);
    let pieces = runs.iter().flat_map(|(start, end)| pieces(*start, *end));
    let result = pieces.into_iter().try_for_each(|(start, end)| {
        write_all(file, &image[start..end], at + start as u64, &mut written)?;
        if written - flushed >= PIECE && written < wanted {
            file.sync_data()?;
            flushed = written;
            tell(written, wanted);
        }
        Ok(())
    });
    result.and_then(|()| file.sync_data()).map_err(|error| Unwritten { written, wanted, error })
}

/// A run in pieces, each of which is written at once.
fn pieces(start: usize, end: usize) -> impl Iterator<Item = (usize, usize)> {
    (start..end).step_by(PIECE).map(move |start| (start, end.min(start + PIECE)))
}

fn write_all(file: &File, mut bytes: &[u8], mut at: u64, written: &mut usize) -> io::Result<()> {
    while !bytes.is_empty() {
        match file.write_at(bytes, at) {
            Ok(0) => return Err(io::ErrorKind::WriteZero.into()),
            Ok(count) => {
                bytes = &bytes[count..];
                at += count as u64;
                *written += count;
            }
            Err(error) if error.kind() == io::ErrorKind::Interrupted => {}
            Err(error) => return Err(error),
        }
    }
    Ok(())
}

/// The runs of bytes that differ, as start and end; a run may hold equal bytes, up to 4 KiB from one change to the next.
pub fn changed_runs(before: &[u8], after: &[u8]) -> Vec<(usize, usize)> {
    let mut runs: Vec<(usize, usize)> = Vec::new();
    for (at, _) in before.iter().zip(after).enumerate().filter(|(_, (a, b))| a != b) {
        match runs.last_mut() {
            Some((_, end)) if at - *end <= NEAR => *end = at + 1,
            _ => runs.push((at, at + 1)),
        }
    }
    runs
}

#[cfg(test)]
mod tests {
    use super::*;

    #[test]
    fn runs_of_changed_bytes() {
        assert_eq!(changed_runs(b"abcdef", b"abcdef"), []);
        assert_eq!(changed_runs(b"abcdef", b"XbcYZf"), [(0, 5)]);
        assert_eq!(changed_runs(b"ab", b"aX"), [(1, 2)]);
        let before = vec![0; 3 * NEAR];
        let with = |places: &[usize]| {
            let mut after = before.clone();
            places.iter().for_each(|at| after[*at] = 1);
            changed_runs(&before, &after)
        };
        assert_eq!(with(&[5, 6 + NEAR]), [(5, 7 + NEAR)]);
        assert_eq!(with(&[5, 7 + NEAR]), [(5, 6), (7 + NEAR, 8 + NEAR)]);
    }

    #[test]
    fn runs_in_pieces() {
        assert_eq!(pieces(7, 9).collect::<Vec<_>>(), [(7, 9)]);
        assert_eq!(pieces(7, 8 + PIECE).collect::<Vec<_>>(), [(7, 7 + PIECE), (7 + PIECE, 8 + PIECE)]);
        assert_eq!(pieces(3, 3).count(), 0);
    }
}
