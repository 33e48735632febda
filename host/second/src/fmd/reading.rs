use super::number::{is_digit, number};
use super::token::{tokens, Kind, Token};
use crate::refuse::number as number_of_row;
use crate::rules::{FaultPick, FmdRules, HeadPart, Row, Rules, SizeBy, TooDeep, Trailing, Unfit, WordFault};

/// What a text says, as far as it was read.
#[derive(Default)]
pub struct Reading {
    pub image: Image,
    /// In the order of the text.
    pub sections: Vec<Section>,
    /// R33: the row of the fault that is given.
    pub fault: Option<Row>,
}

#[derive(Default)]
pub struct Image {
    pub name: Vec<u8>,
    pub address: Option<u64>,
    pub size: u64,
}

pub struct Section {
    pub name: Vec<u8>,
    pub flags: Vec<Vec<u8>>,
    pub offset: Option<u64>,
    pub size: Option<u64>,
    pub parent: Option<usize>,
    /// The siblings beside it.
    pub previous: Option<usize>,
    pub next: Option<usize>,
    /// 1 for those in the image's braces.
    pub level: usize,
}

struct Fault {
    at: usize,
    row: Row,
}

/// A braced list that is being read.
#[derive(Default)]
struct List {
    /// The section that has the braces; none for the image.
    holder: Option<usize>,
    held: usize,
    last: Option<usize>,
}

/// The text is out of grammar, and what follows is not looked at.
struct Stop;

struct Reader<'a> {
    rules: &'a FmdRules,
    text_len: usize,
    tokens: Vec<Token<'a>>,
    next: usize,
    reading: Reading,
    faults: Vec<Fault>,
}

/// R33: reads on after a word's fault, so that the first one is picked by its place.
pub fn read(rules: &Rules, text: &[u8]) -> Reading {
    let tokens = tokens(&rules.fmd, text);
    let mut reader = Reader {
        rules: &rules.fmd,
        text_len: text.len(),
        tokens,
        next: 0,
        reading: Reading::default(),
        faults: Vec::new(),
    };
    if let Err(Stop) = reader.layout() {
        reader.unfit();
    }
    reader.reading.fault = picked(rules, &reader.faults);
    reader.reading
}

/// R33: "the first fault in the text ...; at one place the lowest number".
fn picked(rules: &Rules, faults: &[Fault]) -> Option<Row> {
    let order = |fault: &&Fault| {
        let number = i64::from(number_of_row(rules, fault.row));
        let number = if rules.fmd.lowest_at_one_place { number } else { -number };
        match rules.fmd.pick {
            FaultPick::First => (fault.at as i64, number),
            FaultPick::Last => (-(fault.at as i64), number),
            FaultPick::LowestNumber => (number, 0),
        }
    };
    faults.iter().min_by_key(order).map(|fault| fault.row)
}

impl<'a> Reader<'a> {
    /// The image and, list by list, its sections.
    fn layout(&mut self) -> Result<(), Stop> {
        self.image()?;
        let mut open = vec![List::default()];
        while let Some(mut list) = open.pop() {
            if list.held >= self.rules.sections_min && self.take(b'}') {
                continue;
            }
            let index = self.section(&list, open.len() + 1)?;
            list = List { held: list.held + 1, last: Some(index), ..list };
            open.push(list);
            if self.take(b'{') {
                open.push(List { holder: Some(index), ..List::default() });
            }
        }
        self.end()
    }

    /// L1.
    fn image(&mut self) -> Result<(), Stop> {
        let (at, name) = self.word()?;
        self.judge_name(at, name);
        self.reading.image.name = name.to_vec();
        if self.rules.address_allowed && (!self.rules.address_optional || self.peek().is_sign(b'@')) {
            self.sign(b'@')?;
            let (at, word) = self.word()?;
            self.reading.image.address = Some(self.amount(at, word, self.rules.due_after_at));
        }
        let (at, word) = self.word()?;
        let size = self.amount(at, word, self.rules.due_as_image_size);
        let in_range = (self.rules.image_min..=self.rules.image_max).contains(&size);
        if self.rules.image_range_judged && !in_range {
            self.fault(at, word, Row::BadNumber);
        }
        self.reading.image.size = size;
        self.sign(b'{')
    }

    /// L2: a section up to its braces; answers its place among all.
    fn section(&mut self, list: &List, level: usize) -> Result<usize, Stop> {
        let brace = self.before();
        let (at, name) = self.word()?;
        if self.rules.section_names_judged {
            self.judge_name(at, name);
        }
        if self.reading.sections.len() >= self.rules.sections_max {
            self.fault(at, name, Row::TooMany);
        }
        if level > self.rules.levels_max {
            match self.rules.too_deep {
                TooDeep::Name => self.fault(at, name, Row::TooMany),
                TooDeep::Brace => self.faults.push(Fault { at: brace, row: Row::TooMany }),
            }
        }
        let mut section = Section {
            name: name.to_vec(),
            flags: Vec::new(),
            offset: None,
            size: None,
            parent: list.holder,
            previous: list.last,
            next: None,
            level,
        };
        let mut last = None;
        for part in self.rules.head {
            let begins = self.begins(*part, last);
            if begins {
                self.head_part(*part, &mut section)?;
                last = Some(*part);
            }
        }
        let index = self.reading.sections.len();
        if let Some(previous) = list.last {
            self.reading.sections[previous].next = Some(index);
        }
        self.reading.sections.push(section);
        Ok(index)
    }

    /// L2, L7: whether the next token begins that part, after the part `last`.
    fn begins(&self, part: HeadPart, last: Option<HeadPart>) -> bool {
        match (part, self.peek().kind) {
            (HeadPart::Flags, Kind::Sign(sign)) => sign == b'(',
            (HeadPart::Offset, Kind::Sign(sign)) => sign == b'@',
            (HeadPart::Size, Kind::Word(word)) => self.rules.size_after.contains(&last) && self.is_size(word),
            _ => false,
        }
    }

    fn is_size(&self, word: &[u8]) -> bool {
        match self.rules.size_by {
            SizeBy::Digit => is_digit(word[0]),
            SizeBy::Number => number(self.rules, word).is_some(),
        }
    }

    fn head_part(&mut self, part: HeadPart, section: &mut Section) -> Result<(), Stop> {
        match part {
            HeadPart::Flags => section.flags = self.flags()?,
            HeadPart::Offset => {
                self.sign(b'@')?;
                let (at, word) = self.word()?;
                let offset = self.amount(at, word, self.rules.due_after_at);
                section.offset = Some(offset).filter(|offset| self.rules.zero_offset_given || *offset != 0);
            }
            HeadPart::Size => {
                let (at, word) = self.word()?;
                let size = self.amount(at, word, Row::BadNumber);
                section.size = Some(size).filter(|size| self.rules.zero_size_given || *size != 0);
            }
        }
        Ok(())
    }

    /// L2: "flags in parentheses (CBFS, PRESERVE, at least one, blanks between)".
    fn flags(&mut self) -> Result<Vec<Vec<u8>>, Stop> {
        self.sign(b'(')?;
        let mut flags: Vec<Vec<u8>> = Vec::new();
        while flags.len() < self.rules.flags_min || !self.take(b')') {
            let (at, word) = self.word()?;
            let unknown = !self.rules.flag_bits.iter().any(|(flag, _)| *flag == word);
            let repeated = flags.iter().any(|flag| flag == word);
            if unknown && self.rules.unknown_flag_refused || repeated && self.rules.repeated_flag_refused {
                self.fault(at, word, Row::BadFlag);
            }
            flags.push(word.to_vec());
        }
        Ok(flags)
    }

    /// L10.
    fn end(&mut self) -> Result<(), Stop> {
        while self.rules.trailing == Trailing::Words && matches!(self.peek().kind, Kind::Word(_)) {
            self.next += 1;
        }
        match (self.rules.trailing, self.peek().kind) {
            (Trailing::Anything, _) | (_, Kind::End) => Ok(()),
            _ => Err(Stop),
        }
    }

    /// L6.
    fn judge_name(&mut self, at: usize, name: &[u8]) {
        let digit = self.rules.name_digit_refused && is_digit(name[0]);
        if digit || name.len() > self.rules.name_len_max {
            self.fault(at, name, Row::BadLayoutName);
        }
    }

    /// L8, L9: the number that must stand here; a word that begins with no digit gives the row `other`.
    fn amount(&mut self, at: usize, word: &[u8], other: Row) -> u64 {
        number(self.rules, word).unwrap_or_else(|| {
            let row = if is_digit(word[0]) { Row::BadNumber } else { other };
            self.fault(at, word, row);
            // Reading goes on with a size that is in range, so that one word has one fault.
            self.rules.image_min
        })
    }

    fn peek(&self) -> Token<'a> {
        self.tokens[self.next]
    }

    /// Where the token before the next one stands.
    fn before(&self) -> usize {
        self.next.checked_sub(1).map_or(0, |k| self.tokens[k].at)
    }

    fn word(&mut self) -> Result<(usize, &'a [u8]), Stop> {
        let token = self.peek();
        let Kind::Word(word) = token.kind else { return Err(Stop) };
        self.next += 1;
        Ok((token.at, word))
    }

    fn sign(&mut self, sign: u8) -> Result<(), Stop> {
        self.take(sign).then_some(()).ok_or(Stop)
    }

    /// Goes past that sign, if it is next.
    fn take(&mut self, sign: u8) -> bool {
        let here = self.peek().is_sign(sign);
        self.next += usize::from(here);
        here
    }

    /// R33: "a word's fault stands at its first byte".
    fn fault(&mut self, at: usize, word: &[u8], row: Row) {
        let at = match self.rules.word_fault {
            WordFault::FirstByte => at,
            WordFault::Behind => at + word.len(),
        };
        self.faults.push(Fault { at, row });
    }

    /// R33: "an unfit sign or byte at itself, an early end after the last byte".
    fn unfit(&mut self) {
        let token = self.peek();
        let at = match (token.kind, self.rules.unfit) {
            (Kind::End, _) => self.text_len.saturating_sub(self.rules.end_before),
            (_, Unfit::Itself) => token.at,
            (_, Unfit::Before) => self.before(),
        };
        self.faults.push(Fault { at, row: Row::OutOfGrammar });
    }
}
