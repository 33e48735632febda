use second::Rules;
use std::collections::BTreeMap;
use std::fmt::{self, Display};
use testkit::random::Random;

/// One run of comparisons between the library and the second implementation under `rules`.
pub struct Run<'a> {
    pub rules: &'a Rules,
    pub random: Random,
    pub made: u64,
    /// How often each call was compared.
    calls: BTreeMap<&'static str, u64>,
    /// How often the library did what, by call.
    reached: BTreeMap<(&'static str, Cell), u64>,
}

/// What a call can be seen to do.
#[derive(Clone, Copy, Debug, PartialEq, Eq, PartialOrd, Ord)]
pub enum Cell {
    /// Answers 0 or the refusal's number.
    Answer(u32),
    /// Answers that number because of this argument alone.
    By(u32, &'static str),
    /// Answers on a disk in this state.
    State(u64),
    /// Answers this number of a rule.
    Rule(u64),
    /// Answers on an input of this kind.
    On(&'static str),
}

impl Display for Cell {
    fn fmt(&self, f: &mut fmt::Formatter<'_>) -> fmt::Result {
        match self {
            Cell::Answer(number) => write!(f, "answer {number}"),
            Cell::By(number, argument) => write!(f, "{number} by {argument}"),
            Cell::State(state) => write!(f, "state {state}"),
            Cell::Rule(rule) => write!(f, "rule {rule}"),
            Cell::On(kind) => f.write_str(kind),
        }
    }
}

pub struct Difference(String);

impl Difference {
    pub fn new(what: String) -> Difference {
        Difference(what)
    }
}

impl Display for Difference {
    fn fmt(&self, f: &mut fmt::Formatter<'_>) -> fmt::Result {
        f.write_str(&self.0)
    }
}

pub type Outcome = Result<(), Difference>;

/// A buffer lent to both sides: what each of them left of it and of the bytes around it.
pub struct Buffer<'a> {
    pub name: &'static str,
    /// Where the lent part begins.
    pub start: usize,
    pub library: &'a [u8],
    pub second: &'a [u8],
}

impl<'a> Run<'a> {
    pub fn new(rules: &'a Rules, seed: u64) -> Run<'a> {
        Run { rules, random: Random::new(seed), made: 0, calls: BTreeMap::new(), reached: BTreeMap::new() }
    }

    pub fn reach(&mut self, call: &'static str, cell: Cell) {
        *self.reached.entry((call, cell)).or_default() += 1;
    }

    pub fn times(&self, call: &'static str, cell: Cell) -> u64 {
        self.reached.get(&(call, cell)).copied().unwrap_or(0)
    }

    /// How often calls whose names begin so were compared.
    pub fn compared(&self, prefix: &str) -> u64 {
        self.calls.iter().filter(|(call, _)| call.starts_with(prefix)).map(|(_, times)| times).sum()
    }

    /// Compares the answers of one call, then every byte of the buffers.
    pub fn compare<Answer: PartialEq + Display>(
        &mut self,
        call: &'static str,
        arguments: impl Fn() -> String,
        (library, second): (Answer, Answer),
        buffers: &[Buffer],
    ) -> Outcome {
        self.made += 1;
        *self.calls.entry(call).or_default() += 1;
        let differs = |what: String| Err(Difference(format!("{call}({}): {what}", arguments())));
        if library != second {
            return differs(format!("library answers {library}, second {second}"));
        }
        for buffer in buffers {
            if let Some(at) = first_difference(buffer.library, buffer.second) {
                let (ours, theirs) = (buffer.library[at], buffer.second[at]);
                let place = at as isize - buffer.start as isize;
                let name = buffer.name;
                return differs(format!("{name}[{place}] is {ours:02X} by library, {theirs:02X} by second"));
            }
        }
        Ok(())
    }
}

fn first_difference(a: &[u8], b: &[u8]) -> Option<usize> {
    if a == b {
        return None;
    }
    a.iter().zip(b).position(|(x, y)| x != y)
}

/// Bytes kept before and after a lent buffer, to show a write outside it.
const GUARD: usize = 16;

/// A buffer between guard bytes.
#[derive(Clone)]
pub struct Lent {
    store: Vec<u8>,
}

impl Lent {
    pub fn holding(bytes: &[u8], random: &mut Random) -> Lent {
        let mut store = random.bytes(bytes.len() + 2 * GUARD);
        store[GUARD..GUARD + bytes.len()].copy_from_slice(bytes);
        Lent { store }
    }

    /// Random bytes, so that a refusal that writes shows.
    pub fn of_length(length: usize, random: &mut Random) -> Lent {
        Lent { store: random.bytes(length + 2 * GUARD) }
    }

    pub fn bytes(&self) -> &[u8] {
        &self.store[GUARD..self.store.len() - GUARD]
    }

    pub fn bytes_mut(&mut self) -> &mut [u8] {
        let end = self.store.len() - GUARD;
        &mut self.store[GUARD..end]
    }

    pub fn pair<'a>(name: &'static str, library: &'a Lent, second: &'a Lent) -> Buffer<'a> {
        Buffer { name, start: GUARD, library: &library.store, second: &second.store }
    }
}

/// How many bytes of a text a difference shows.
const SHOWN: usize = 600;

pub fn shown(text: &[u8]) -> String {
    let end = text.len().min(SHOWN);
    let rest = if end < text.len() { format!(".. {} bytes", text.len()) } else { String::new() };
    format!("\"{}\"{rest}", text[..end].escape_ascii())
}
