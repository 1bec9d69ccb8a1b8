//! A member as two maps: from names to entries, LOW and HIGH among them, and from the
//! lower end of a gap to its version.

use std::collections::BTreeMap;
use std::ops::Bound::{Excluded, Unbounded};

pub const LOW: i64 = -1;
pub const HIGH: i64 = 1_048_576;

#[derive(Clone, Copy, PartialEq, Eq, Debug)]
pub struct Entry {
    pub version: u64,
    pub value: u64,
}

#[derive(Clone, PartialEq, Eq, Debug)]
pub struct Member {
    pub entries: BTreeMap<i64, Entry>,
    pub gaps: BTreeMap<i64, u64>,
}

impl Member {
    pub fn fresh() -> Member {
        let end = Entry {
            version: 0,
            value: 0,
        };
        Member {
            entries: [(LOW, end), (HIGH, end)].into(),
            gaps: [(LOW, 0)].into(),
        }
    }

    pub fn next_below(&self, name: i64) -> i64 {
        *self.entries.range(..name).next_back().unwrap().0
    }

    pub fn next_above(&self, name: i64) -> i64 {
        *self
            .entries
            .range((Excluded(name), Unbounded))
            .next()
            .unwrap()
            .0
    }

    /// Whether the name is an entry, the version of the entry or gap, the value.
    pub fn reading(&self, name: i64) -> (bool, u64, u64) {
        match self.entries.get(&name) {
            Some(entry) => (true, entry.version, entry.value),
            None => (false, self.gaps[&self.next_below(name)], 0),
        }
    }

    pub fn write(&mut self, name: i64, entry: Entry) {
        if !self.entries.contains_key(&name) {
            let split = self.gaps[&self.next_below(name)];
            self.gaps.insert(name, split);
        }
        self.entries.insert(name, entry);
    }

    pub fn coalesce(&mut self, (p, at_p): (i64, Entry), (s, at_s): (i64, Entry), version: u64) {
        if p != LOW {
            self.write(p, at_p);
        }
        if s != HIGH {
            self.write(s, at_s);
        }
        self.entries.retain(|&name, _| name <= p || s <= name);
        self.gaps.retain(|&lower, _| lower <= p || s <= lower);
        self.gaps.insert(p, version);
    }

    pub fn held(&self) -> usize {
        self.entries.len() - 2
    }
}
