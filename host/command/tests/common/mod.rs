//! The built command on real files, as a person runs it.
#![allow(dead_code)]

pub mod disturbed;
pub mod image;
pub mod strings;

use std::ffi::OsStr;
use std::fs;
use std::io::Write;
use std::path::{Path, PathBuf};
use std::process::{Command, Output, Stdio};
use std::sync::atomic::{AtomicU32, Ordering};
use std::sync::OnceLock;
use testkit::disk::Disk;
use testkit::json::{self, Json};
use testkit::listing::Partition;

/// A folder of a test's own, removed when it is dropped.
pub struct Folder(pub PathBuf);

impl Folder {
    pub fn new() -> Folder {
        static MADE: AtomicU32 = AtomicU32::new(0);
        let name =
            format!("usigrambal-command-{}-{}", std::process::id(), MADE.fetch_add(1, Ordering::Relaxed));
        let path = std::env::temp_dir().join(name);
        fs::create_dir(&path).expect("a new folder");
        Folder(path)
    }

    pub fn path(&self, name: &str) -> PathBuf {
        self.0.join(name)
    }

    pub fn file(&self, name: &str, bytes: impl AsRef<[u8]>) -> PathBuf {
        let path = self.path(name);
        fs::write(&path, bytes).expect("a file");
        path
    }

    /// A sparse file of so many bytes.
    pub fn sparse(&self, name: &str, bytes: u64) -> PathBuf {
        let path = self.path(name);
        fs::File::create(&path).and_then(|file| file.set_len(bytes)).expect("a sparse file");
        path
    }

    pub fn names(&self) -> Vec<String> {
        let entries = fs::read_dir(&self.0).expect("a folder");
        let mut names: Vec<_> =
            entries.map(|entry| entry.expect("an entry").file_name().into_string().expect("UTF-8")).collect();
        names.sort();
        names
    }
}

impl Drop for Folder {
    fn drop(&mut self) {
        let _ = fs::remove_dir_all(&self.0);
    }
}

/// How a call ended, and what it printed.
#[derive(Debug)]
pub struct Ended {
    /// None after a signal.
    pub status: Option<i32>,
    pub bytes: Vec<u8>,
    pub out: String,
    pub err: String,
}

impl From<Output> for Ended {
    fn from(output: Output) -> Ended {
        let text = |bytes: &[u8]| String::from_utf8_lossy(bytes).into_owned();
        let (out, err) = (text(&output.stdout), text(&output.stderr));
        Ended { status: output.status.code(), bytes: output.stdout, out, err }
    }
}

impl Ended {
    /// It was done; what it printed.
    #[track_caller]
    pub fn done(self) -> String {
        assert_eq!((self.status, self.err.as_str()), (Some(0), ""), "{}", self.out);
        self.out
    }

    /// It was done; the one JSON document that it printed.
    #[track_caller]
    pub fn json(self) -> Json {
        json::parse(&self.done()).expect("JSON")
    }

    /// The library refused with that number; the file and the words, as its line on standard error has them. Nothing else
    /// was printed but hints.
    #[track_caller]
    pub fn refused(self, number: u32) -> String {
        assert_eq!((self.status, self.out.as_str()), (Some(1), ""), "{}", self.err);
        let (line, _) = self.told();
        let words = line.strip_prefix(&format!("refused {number}: ")).map(str::to_string);
        words.filter(|words| !words.is_empty()).unwrap_or_else(|| panic!("not {number}: {}", self.err))
    }

    /// Usage: a sentence with these words on standard error, nothing else but a hint.
    #[track_caller]
    pub fn usage(self, words: &str) {
        self.sentence(2, words);
    }

    /// Input and output: such a sentence.
    #[track_caller]
    pub fn unusable(self, words: &str) {
        self.sentence(3, words);
    }

    /// In use, or something is there that needs a word: such a sentence.
    #[track_caller]
    pub fn needed(self, words: &str) {
        self.sentence(4, words);
    }

    #[track_caller]
    fn sentence(self, status: i32, words: &str) {
        assert_eq!((self.status, self.out.as_str()), (Some(status), ""), "{}", self.err);
        let (line, hint) = self.told();
        let said = line.strip_prefix("usigrambal: ").unwrap_or_else(|| panic!("no sentence: {}", self.err));
        let hint = hint.unwrap_or_default();
        assert!(said.contains(words) || hint.contains(words), "not \"{words}\": {}", self.err);
    }

    /// The hint on standard error.
    #[track_caller]
    pub fn hint(&self) -> String {
        self.told().1.unwrap_or_else(|| panic!("no hint: {}", self.err))
    }

    /// The one line of standard error, and the hint that may follow it.
    #[track_caller]
    fn told(&self) -> (String, Option<String>) {
        let lines: Vec<&str> = self.err.lines().collect();
        match lines[..] {
            [line] => (line.to_string(), None),
            [line, hint] if hint.starts_with("hint: ") => {
                (line.to_string(), Some(hint["hint: ".len()..].to_string()))
            }
            _ => panic!("not one line and a hint: {}", self.err),
        }
    }
}

/// The command that is tested: the one that USIGRAMBAL_COMMAND names, as it is shipped; else the one that cargo built beside the tests.
pub fn program() -> &'static str {
    static NAMED: OnceLock<Option<String>> = OnceLock::new();
    let named = NAMED.get_or_init(|| std::env::var("USIGRAMBAL_COMMAND").ok());
    named.as_deref().unwrap_or(env!("CARGO_BIN_EXE_usigrambal"))
}

pub fn command() -> Command {
    Command::new(program())
}

/// Runs the command with words, paths among them.
#[macro_export]
macro_rules! run {
    ($($word:expr),* $(,)?) => {
        common::run(&[$(std::ffi::OsStr::new(&$word)),*])
    };
}

pub fn run(words: &[&OsStr]) -> Ended {
    command().args(words).stdin(Stdio::null()).output().expect("the command").into()
}

/// The refusal's words and its hint, of a call on a disk, on standard error and in the JSON document.
#[track_caller]
pub fn refused(words: &[&str], number: u32, said: &str, hint: &str) {
    let call = |extra: &[&str]| {
        let words: Vec<&OsStr> = words.iter().chain(extra).map(OsStr::new).collect();
        run(&words)
    };
    let ended = call(&[]);
    assert_eq!(ended.hint(), hint);
    assert_eq!(ended.refused(number), format!("{}: {said}", words[2]));
    let json = json::parse(&call(&["--json"]).out).expect("JSON");
    assert_eq!((json.text("disk"), json.number("refused")), (words[2], number.into()));
    assert_eq!((json.text("words"), json.text("hint")), (said, hint));
}

pub fn fed(words: &[&OsStr], input: &[u8]) -> Ended {
    let pipes =
        command().args(words).stdin(Stdio::piped()).stdout(Stdio::piped()).stderr(Stdio::piped()).spawn();
    let mut child = pipes.expect("the command");
    // What is refused early leaves its input unread.
    let _ = child.stdin.take().expect("a pipe").write_all(input);
    child.wait_with_output().expect("the command").into()
}

/// Two images by the sections of their layouts, behind FMAP; each is filled with its own byte.
pub fn images(folder: &Folder, old: &str, new: &str) -> (PathBuf, PathBuf) {
    let image = |name: &str, sections: &str, fill: u8| {
        let layout = folder.file(&format!("{name}.fmd"), format!("CHIP 64K {{ FMAP 4K {sections} }}"));
        let path = folder.file(&format!("{name}.bin"), vec![fill; 65_536]);
        run(&[OsStr::new("fmd"), OsStr::new("write"), layout.as_os_str(), path.as_os_str()]).done();
        path
    };
    (image("old", old, 0x11), image("new", new, 0x22))
}

/// A disk image of n blocks, formatted.
pub fn disk(folder: &Folder, name: &str, n: u64) -> PathBuf {
    let path = folder.sparse(name, n * 512);
    run(&["gpt".as_ref(), "format".as_ref(), path.as_os_str()]).done();
    path
}

/// A disk image of n blocks of 4096 bytes, formatted.
pub fn disk_of_4096(folder: &Folder, name: &str, n: u64) -> PathBuf {
    let path = folder.sparse(name, n * 4096);
    at_4096("format", &path, &[]).done();
    path
}

/// `gpt VERB DISK`, more words, and `--block 4096`.
pub fn at_4096(verb: &str, disk: &Path, more: &[&str]) -> Ended {
    let words = [OsStr::new("gpt"), OsStr::new(verb), disk.as_os_str()];
    let more = more.iter().chain(&["--block", "4096"]).map(OsStr::new);
    run(&words.into_iter().chain(more).collect::<Vec<_>>())
}

/// At the lowest block with room, whatever its number.
pub fn add(disk: &Path, size: &str, name: &str) -> Json {
    let words = ["gpt", "add", "--json", "--align", "1", "--size", size, "--name", name].map(OsStr::new);
    run(&[&words[..], &[disk.as_os_str()]].concat()).json()
}

/// The partitions of a document of `gpt show`.
pub fn partitions(shown: &Json) -> Vec<Partition> {
    let row = |partition: &Json| {
        let bits = partition.text("attributes").trim_start_matches("0x");
        Partition {
            slot: partition.number("number"),
            first: partition.number("first"),
            last: partition.number("last"),
            kind: partition.text("type").to_string(),
            unique: partition.text("guid").to_string(),
            attributes: u64::from_str_radix(bits, 16).expect("a hex number"),
            name: partition.text("name").to_string(),
        }
    };
    shown.list("partitions").iter().map(row).collect()
}

/// Changes a byte of a file.
pub fn spoil(path: &Path, at: u64) {
    use std::os::unix::fs::FileExt;
    let file = fs::OpenOptions::new().read(true).write(true).open(path).expect("a file");
    let mut byte = [0];
    file.read_exact_at(&mut byte, at).expect("a byte");
    file.write_all_at(&[byte[0] ^ 1], at).expect("a byte");
}

/// Changes slots of a disk image in both copies, with the CRCs that belong to them.
pub fn change_slots(
    path: &Path,
    block: u64,
    slots: impl IntoIterator<Item = u64>,
    change: impl Fn(&mut [u8]),
) {
    let mut disk = Disk::read(path, block).expect("a disk");
    slots.into_iter().for_each(|slot| disk.entry(slot).into_iter().for_each(&change));
    disk.set_crcs(usigrambal::crc32);
    disk.write(path).expect("a disk");
}

/// Clears the type GUIDs of slots and no other byte of them: so cgpt deletes.
pub fn clear_types(path: &Path, block: u64, slots: impl IntoIterator<Item = u64>) {
    change_slots(path, block, slots, |entry| entry[..16].fill(0));
}

/// Writes the 72 bytes of a name into slots, as no edit would where another one has them: the text's units and then zeros.
pub fn set_name(path: &Path, block: u64, slots: impl IntoIterator<Item = u64>, text: &str) {
    let mut stored: Vec<u8> = text.encode_utf16().flat_map(u16::to_le_bytes).collect();
    stored.resize(72, 0);
    change_slots(path, block, slots, |entry| entry[56..].copy_from_slice(&stored));
}

/// Says so where the test's own output is not shown.
pub fn skipped(what: &str) {
    let _ = writeln!(std::io::stdout(), "skipped: {what}");
}

/// A loop device over a file, let go when it is dropped.
pub struct Loop(pub PathBuf);

impl Loop {
    pub fn new(file: &Path, options: &[&str]) -> Option<Loop> {
        let made = Command::new("losetup").args(options).args(["-f", "--show"]).arg(file).output();
        let made = made.ok().filter(|made| made.status.success());
        if made.is_none() {
            skipped("loop devices");
        }
        Some(Loop(String::from_utf8(made?.stdout).expect("UTF-8").trim_end().into()))
    }
}

impl Drop for Loop {
    fn drop(&mut self) {
        let _ = Command::new("losetup").arg("-d").arg(&self.0).status();
    }
}
