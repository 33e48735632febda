//! The rows of the disk calls on a disk in a file, beside libfdisk: both open the file, read it, do the work and close it.

use crate::check::{self, PARTITIONS};
use crate::disk::{self, Disk, KIND, NEW};
use crate::gpt::Disks;
use crate::library::Library;
use crate::table::{Label, Table};
use crate::timed::{prepared, Timed};
use std::ffi::{c_char, c_int, CString};
use std::fs::{File, OpenOptions};
use std::os::unix::fs::FileExt;
use std::path::Path;
use std::sync::OnceLock;
use testkit::strings;
use usigrambal::{AttributeRule, BlockSize, Guid, Name, NewPartition};

const BLOCK: BlockSize = BlockSize::Bytes512;

/// Below 0: an error.
type Call = extern "C" fn(*const c_char) -> c_int;

/// The same work by both on a disk of which each has a file.
struct Work<'a> {
    what: &'static str,
    peer: &'static str,
    disk: &'a Disk,
    /// How many partitions the table has: before, or where none is there, afterwards.
    partitions: usize,
    ours: fn(&Path) -> usize,
    theirs: Call,
    answer: usize,
}

pub fn rows<'a>(t: &mut Table<'a>, disks: &'a Disks) {
    match Library::open("libfdisk", "libfdisk-dev") {
        Ok(library) => works(&library, disks).into_iter().for_each(|work| row(t, work)),
        Err(why) => t.left_out.push(format!("gpt on a file: {why}")),
    }
}

fn works<'a>(library: &Library, disks: &'a Disks) -> [Work<'a>; 4] {
    // Safety: the functions are of this type.
    let function = |name| unsafe { library.function(name) };
    [
        Work {
            what: "gpt: open, pread, partitions",
            peer: "libfdisk: assign, get_partitions",
            disk: &disks.full,
            partitions: PARTITIONS,
            ours: list,
            theirs: function(c"peer_list"),
            answer: PARTITIONS,
        },
        Work {
            what: "gpt: open, pread, add, pwrite",
            peer: "libfdisk: assign, add, write_disklabel",
            disk: &disks.room,
            partitions: PARTITIONS - 1,
            ours: add,
            theirs: function(c"peer_add"),
            answer: 0,
        },
        Work {
            what: "gpt: open, pread, repair, pwrite",
            peer: "libfdisk: assign, write_disklabel",
            disk: &disks.broken,
            partitions: PARTITIONS,
            ours: repair,
            theirs: function(c"peer_repair"),
            answer: 0,
        },
        Work {
            what: "gpt: open, pread, build, pwrite",
            peer: "libfdisk: assign, apply_script, write_disklabel",
            disk: &disks.blank,
            partitions: PARTITIONS,
            ours: build,
            theirs: function(c"peer_build"),
            answer: 0,
        },
    ]
}

fn row<'a>(t: &mut Table<'a>, work: Work<'a>) {
    let Work { what, peer, disk, partitions, ours, theirs, answer } = work;
    let by_ours = side(what, disk, answer, ours);
    let by_peer = side(peer, disk, answer, move |path: &Path| {
        let path = CString::new(path.to_str().expect("a path in UTF-8")).expect("no zero byte");
        usize::try_from(theirs(path.as_ptr())).unwrap_or_else(|_| panic!("{peer}: an error"))
    });
    let size = format!("{partitions} partitions");
    t.row(Label::new(what, peer).size(size), by_ours, by_peer);
}

/// One side with a file of its own, once it was seen to answer rightly and to leave a good disk.
fn side<'a>(who: &str, disk: &'a Disk, answer: usize, call: impl Fn(&Path) -> usize + 'a) -> Timed<'a> {
    let image = disk.image();
    assert_eq!(call(&image.path), answer, "{who}");
    check::disk_left(who, &image.path);
    let path = image.path.clone();
    prepared(move || disk.write_to(&image.path), move || call(&path))
}

/// A disk's file and the blocks of its table.
struct Opened {
    file: File,
    head: [u8; BLOCK.head_len()],
    tail: [u8; BLOCK.tail_len()],
    n: u64,
}

impl Opened {
    fn new(path: &Path, options: &mut OpenOptions) -> Opened {
        let file = options.read(true).open(path).expect("the disk's file");
        let n = file.metadata().expect("its length").len() / BLOCK.bytes();
        let (mut head, mut tail) = ([0; BLOCK.head_len()], [0; BLOCK.tail_len()]);
        file.read_exact_at(&mut head, 0).expect("its head");
        file.read_exact_at(&mut tail, tail_at(n)).expect("its tail");
        Opened { file, head, tail, n }
    }

    fn disk(&mut self) -> usigrambal::Disk<'_> {
        usigrambal::Disk { head: &mut self.head, tail: &mut self.tail, n: self.n, block: BLOCK }
    }

    fn write(&self) {
        self.file.write_all_at(&self.tail, tail_at(self.n)).expect("the tail is written");
        self.file.write_all_at(&self.head, 0).expect("the head is written");
    }
}

fn tail_at(n: u64) -> u64 {
    n * BLOCK.bytes() - BLOCK.tail_len() as u64
}

fn list(path: &Path) -> usize {
    Opened::new(path, &mut OpenOptions::new()).disk().partitions().expect("a good disk").len()
}

fn add(path: &Path) -> usize {
    let new = NewPartition {
        kind: Guid(KIND),
        unique: Guid([NEW; 16]),
        size: 2,
        alignment: 1,
        attributes: 0,
        rule: AttributeRule::Present,
        name: Name(disk::name(NEW)),
    };
    changed(path, |disk| {
        disk.add(&new).expect("room");
    })
}

/// 128 partitions of one block.
fn build(path: &Path) -> usize {
    static STRING: OnceLock<String> = OnceLock::new();
    let string = STRING.get_or_init(|| strings::many(PARTITIONS, BLOCK.bytes()));
    changed(path, |disk| disk.build(1, string.as_bytes()).expect("room"))
}

fn repair(path: &Path) -> usize {
    changed(path, |disk| {
        disk.repair().expect("a good copy");
    })
}

fn changed(path: &Path, change: impl Fn(&mut usigrambal::Disk)) -> usize {
    let mut opened = Opened::new(path, OpenOptions::new().write(true));
    change(&mut opened.disk());
    opened.write();
    0
}
