use crate::rules::{LedgerRules, Rules};
use std::collections::BTreeMap;

/// D19 to D22: blocks granted and given back by a list of calls, from calls and replies alone.
pub struct Ledger {
    rules: LedgerRules,
    pub granted: u128,
    pub given_back: u128,
    /// Sizes by slot: the first one accepted and the last one.
    sizes: BTreeMap<u64, (u64, u64)>,
}

impl Ledger {
    /// The ledger of a list that follows an accepted formatting.
    pub fn new(rules: &Rules) -> Ledger {
        Ledger { rules: rules.gpt.ledger, granted: 0, given_back: 0, sizes: BTreeMap::new() }
    }

    /// The blocks that must lie in partitions.
    pub fn in_partitions(&self) -> i128 {
        self.granted as i128 - self.given_back as i128
    }

    pub fn formatted(&mut self) {
        if self.rules.starts_at_formatting {
            (self.granted, self.given_back) = (0, 0);
        }
        self.sizes.clear();
    }

    /// b9: an accepted string; of each of its partitions, in the text's order, the size in blocks and whether the text has 0.
    pub fn built(&mut self, partitions: &[(u64, bool)]) {
        let rules = self.rules.strings;
        if rules.starts_afresh {
            (self.granted, self.given_back) = (0, 0);
        }
        self.sizes.clear();
        for ((size, open), slot) in partitions.iter().zip(rules.first_slot..) {
            let size = if *open && !rules.open_granted { 0 } else { *size };
            if rules.partitions_granted {
                self.granted += u128::from(size) + u128::from(rules.grants_besides);
                self.sizes.insert(slot, (size, size));
            }
        }
    }

    pub fn added(&mut self, slot: u64, size: u64) {
        self.next_call();
        self.granted += u128::from(size) + u128::from(self.rules.add_grants_besides);
        self.sizes.insert(slot, (size, size));
    }

    pub fn deleted(&mut self, slot: u64) {
        self.next_call();
        let (first, last) = self.sizes.remove(&slot).unwrap_or((0, 0));
        self.given_back += u128::from(if self.rules.delete_gives_last_size { last } else { first });
    }

    pub fn resized(&mut self, slot: u64, size: u64) {
        self.next_call();
        let sizes = self.sizes.entry(slot).or_insert((0, 0));
        let before = if self.rules.resize_by_difference { sizes.1 } else { 0 };
        sizes.1 = size;
        self.granted += u128::from(size.saturating_sub(before));
        self.given_back += u128::from(before.saturating_sub(size));
    }

    pub fn renamed(&mut self) {
        self.next_call();
        self.granted += u128::from(self.rules.rename_grants);
    }

    pub fn repaired(&mut self) {
        self.next_call();
        self.granted += u128::from(self.rules.repair_grants);
    }

    pub fn refused(&mut self) {
        self.next_call();
        self.granted += u128::from(self.rules.refusal_grants);
    }

    fn next_call(&mut self) {
        if !self.rules.whole_list {
            (self.granted, self.given_back) = (0, 0);
        }
    }
}
