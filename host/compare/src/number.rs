use std::fmt;
use testkit::random::Random;

/// A number answer between guards; what it holds before the call is random.
#[derive(Clone, PartialEq)]
pub struct Number {
    store: [u64; 3],
}

impl Number {
    pub fn new(random: &mut Random) -> Number {
        Number { store: [random.number(), random.number(), random.number()] }
    }

    pub fn value(&self) -> u64 {
        self.store[1]
    }

    pub fn answer(&mut self) -> &mut u64 {
        &mut self.store[1]
    }
}

/// What a call answered: 0 or the refusal's number, and its number answers.
#[derive(PartialEq)]
pub struct Answers<const K: usize>(pub u32, pub [Number; K]);

impl<const K: usize> fmt::Display for Answers<K> {
    fn fmt(&self, f: &mut fmt::Formatter<'_>) -> fmt::Result {
        let Answers(number, values) = self;
        write!(f, "{number}")?;
        values.iter().try_for_each(|value| write!(f, ", {:X?}", value.store))
    }
}
