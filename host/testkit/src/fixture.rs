//! Bytes that another tool made, in a text: comment lines begin with `#`, and
//!
//! ```text
//! block BYTES          512 where no line says it
//! blocks N
//! state STATE          or "refused" and the number
//! string ALIGNMENT TEXT    the layout string that says the same, if there is one
//! partition SLOT FIRST LAST TYPE UNIQUE ATTRIBUTES "NAME"    as the tool listed it
//! head OFFSET BYTES    in hex; what no line names is zero
//! tail OFFSET BYTES
//! ```
//!
//! for a disk, and for a flash image
//!
//! ```text
//! length BYTES
//! fill BYTE            in hex, of what no line names
//! found POSITION       or "refused" and the number
//! area NAME OFFSET SIZE    as the tool listed it
//! preserve NAME
//! image OFFSET BYTES
//! ```
//!
//! and for a layout text
//!
//! ```text
//! text LINE            a line of it, which LF ends
//! bytes BYTES          in hex
//! reads NAME SIZE ADDRESS COUNT    or "refused" and the number
//! section POSITION SIZE FLAGS NAME
//! map OFFSET BYTES     the bytes of the image that are written
//! ```

use crate::disk::{Disk, Shape};
use crate::flash::{self, AREA_LEN, NAME_LEN};
use crate::layout::Calls;
use crate::listing::{self, Area, Partition};
use std::path::{Path, PathBuf};
use std::{fs, io};

/// A disk, and what the tool said of it.
pub struct DiskFixture {
    pub disk: Disk,
    /// The state, or the number of the refusal.
    pub reads_as: Result<u64, u32>,
    /// An alignment and a layout string.
    pub string: Option<(u64, String)>,
    pub partitions: Vec<Partition>,
}

/// The files of a folder of `fixtures/`, by name.
pub fn files(folder: &str, extension: &str) -> Vec<PathBuf> {
    let folder = crate::host().join("fixtures").join(folder);
    let entries = fs::read_dir(&folder).unwrap_or_else(|error| panic!("{}: {error}", folder.display()));
    let paths = entries.map(|entry| entry.expect("a file").path());
    let mut files: Vec<_> = paths.filter(|path| path.extension().is_some_and(|e| e == extension)).collect();
    files.sort();
    files
}

pub fn disk(path: &Path) -> io::Result<DiskFixture> {
    let text = fs::read_to_string(path)?;
    let mut disk = Shape::of(512).filled(0, 0);
    let (mut reads_as, mut string, mut partitions) = (Err(0), None, Vec::new());
    for line in text.lines().filter(|line| !line.is_empty() && !line.starts_with('#')) {
        let wrong = || io::Error::other(format!("{}: {line}", path.display()));
        let (word, rest) = line.split_once(' ').ok_or_else(wrong)?;
        match word {
            "block" => disk = Shape::of(rest.parse().map_err(|_| wrong())?).filled(0, 0),
            "blocks" => disk.n = rest.parse().map_err(|_| wrong())?,
            "state" => reads_as = Ok(rest.parse().map_err(|_| wrong())?),
            "refused" => reads_as = Err(rest.parse().map_err(|_| wrong())?),
            "string" => {
                let (alignment, text) = rest.split_once(' ').ok_or_else(wrong)?;
                string = Some((alignment.parse().map_err(|_| wrong())?, text.to_string()));
            }
            "partition" => partitions.push(listing::partition(rest).ok_or_else(wrong)?),
            "head" => put(&mut disk.head, rest).ok_or_else(wrong)?,
            "tail" => put(&mut disk.tail, rest).ok_or_else(wrong)?,
            _ => return Err(wrong()),
        }
    }
    Ok(DiskFixture { disk, reads_as, string, partitions })
}

/// A flash image, and what the tool said of it.
pub struct FlashFixture {
    pub image: Vec<u8>,
    /// The position of the map, or the number of the refusal.
    pub reads_as: Result<u64, u32>,
    pub areas: Vec<Area>,
    pub preserved: Vec<String>,
}

pub fn flash(path: &Path) -> io::Result<FlashFixture> {
    let text = fs::read_to_string(path)?;
    let (mut areas, mut preserved) = (Vec::new(), Vec::new());
    let (mut image, mut reads_as) = (Vec::new(), Err(0));
    for line in text.lines().filter(|line| !line.is_empty() && !line.starts_with('#')) {
        let wrong = || io::Error::other(format!("{}: {line}", path.display()));
        let (word, rest) = line.split_once(' ').ok_or_else(wrong)?;
        match word {
            "length" => image.resize(rest.parse().map_err(|_| wrong())?, 0),
            "fill" => image.fill(u8::from_str_radix(rest, 16).map_err(|_| wrong())?),
            "found" => reads_as = Ok(rest.parse().map_err(|_| wrong())?),
            "refused" => reads_as = Err(rest.parse().map_err(|_| wrong())?),
            "area" => areas.push(listing::area(rest).ok_or_else(wrong)?),
            "preserve" => preserved.push(rest.to_string()),
            "image" => put(&mut image, rest).ok_or_else(wrong)?,
            _ => return Err(wrong()),
        }
    }
    Ok(FlashFixture { image, reads_as, areas, preserved })
}

/// A layout text, and what its tool made of it.
pub struct LayoutFixture {
    pub text: Vec<u8>,
    pub reads_as: Result<ReadsAs, u32>,
    pub sections: Vec<flash::Area>,
    /// Pieces of the map, with their places in the image.
    pub map: Vec<(usize, Vec<u8>)>,
}

/// What a layout text says of its image.
#[derive(Debug, PartialEq, Eq)]
pub struct ReadsAs {
    pub name: String,
    pub size: u64,
    pub address: u64,
    pub count: u64,
}

pub fn layout(path: &Path) -> io::Result<LayoutFixture> {
    let file = fs::read_to_string(path)?;
    let mut fixture =
        LayoutFixture { text: Vec::new(), reads_as: Err(0), sections: Vec::new(), map: Vec::new() };
    for line in file.lines().filter(|line| !line.is_empty() && !line.starts_with('#')) {
        let wrong = || io::Error::other(format!("{}: {line}", path.display()));
        let (word, rest) = line.split_once(' ').unwrap_or((line, ""));
        match word {
            "text" => fixture.text.extend([rest.as_bytes(), b"\n"].concat()),
            "bytes" => fixture.text.extend(hex(rest).ok_or_else(wrong)?),
            "reads" => fixture.reads_as = Ok(reads_as(rest).ok_or_else(wrong)?),
            "refused" => fixture.reads_as = Err(rest.parse().map_err(|_| wrong())?),
            "section" => fixture.sections.push(section(rest).ok_or_else(wrong)?),
            "map" => fixture.map.push(piece(rest).ok_or_else(wrong)?),
            _ => return Err(wrong()),
        }
    }
    Ok(fixture)
}

fn reads_as(line: &str) -> Option<ReadsAs> {
    let mut words = line.split(' ');
    let name = words.next()?.to_string();
    let mut number = || words.next()?.parse().ok();
    Some(ReadsAs { name, size: number()?, address: number()?, count: number()? })
}

fn section(line: &str) -> Option<flash::Area> {
    let mut words = line.splitn(4, ' ');
    let (offset, size) = (words.next()?.parse().ok()?, words.next()?.parse().ok()?);
    let flags = words.next()?.parse().ok()?;
    Some(flash::Area { offset, size, flags, name: words.next()?.as_bytes().to_vec() })
}

fn piece(line: &str) -> Option<(usize, Vec<u8>)> {
    let (offset, bytes) = line.split_once(' ')?;
    Some((usize::from_str_radix(offset, 16).ok()?, hex(bytes)?))
}

fn hex(digits: &str) -> Option<Vec<u8>> {
    let pairs = digits.as_bytes().chunks(2).map(|pair| std::str::from_utf8(pair).ok());
    pairs.map(|pair| u8::from_str_radix(pair?, 16).ok()).collect()
}

impl LayoutFixture {
    /// The calls do with the text what the tool did.
    pub fn holds(&self, calls: &Calls, name: &str) {
        let mut image_name = [0xAA; NAME_LEN];
        let (mut size, mut address, mut count) = (0, 0, 0);
        let number = (calls.read)(&self.text, &mut image_name, &mut size, &mut address, &mut count);
        let found = match number {
            0 => Ok(ReadsAs { name: text_of(&image_name), size, address, count }),
            number => Err(number),
        };
        assert_eq!(found, self.reads_as, "{name}");
        let mut records = vec![0xA5; 128 * AREA_LEN];
        let mut listed = 0;
        assert_eq!((calls.records)(&self.text, &mut records, &mut listed), number, "{name}");
        assert_eq!(listed, self.sections.len() as u64, "{name}");
        let expected: Vec<u8> = self.sections.iter().flat_map(flash::Area::to_bytes).collect();
        let (filled, unused) = records.split_at(expected.len());
        assert!(filled == expected && unused.iter().all(|byte| *byte == 0xA5), "{name}");
        for fill in [0x00, 0xFF] {
            let mut image = vec![fill; size as usize];
            assert_eq!((calls.write)(&self.text, &mut image), number, "{name}");
            let mut expected = vec![fill; size as usize];
            for (at, bytes) in &self.map {
                expected[*at..at + bytes.len()].copy_from_slice(bytes);
            }
            assert!(image == expected, "{name}: the image is another one");
        }
    }
}

fn text_of(name: &[u8]) -> String {
    name.iter().take_while(|byte| **byte != 0).map(|byte| char::from(*byte)).collect()
}

/// Puts `OFFSET BYTES` into the buffer.
pub fn put(buffer: &mut [u8], line: &str) -> Option<()> {
    let (offset, bytes) = piece(line)?;
    buffer.get_mut(offset..offset + bytes.len())?.copy_from_slice(&bytes);
    Some(())
}

/// The lines of a buffer: its pieces of 32 bytes that are not all `filler`.
pub fn lines(name: &str, buffer: &[u8], filler: u8) -> String {
    let mut text = String::new();
    for (piece, at) in buffer.chunks(32).zip((0..).step_by(32)) {
        if piece.iter().any(|byte| *byte != filler) {
            let hex: String = piece.iter().map(|byte| format!("{byte:02X}")).collect();
            text += &format!("{name} {at:04X} {hex}\n");
        }
    }
    text
}

#[cfg(test)]
mod tests {
    use super::*;

    #[test]
    fn a_buffer_is_read_as_it_is_written() {
        let mut buffer = vec![0; 100];
        (buffer[3], buffer[64], buffer[99]) = (7, 0xAB, 9);
        let mut read = vec![0; 100];
        for line in lines("head", &buffer, 0).lines() {
            put(&mut read, line.strip_prefix("head ").unwrap()).unwrap();
        }
        assert_eq!(read, buffer);
        assert_eq!(put(&mut read, "63 0102"), None);
        assert_eq!(put(&mut read, "0 0G"), None);
    }
}
