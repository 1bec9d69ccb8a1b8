//! A figure over many samples, and what an image shows of leftovers.

use std::collections::BTreeMap;

use second::member::Member;
use second::suite::Suite;

/// Mean, largest and standard deviation of what was added.
#[derive(Default)]
pub struct Figure {
    count: f64,
    sum: f64,
    squares: f64,
    pub most: f64,
}

impl Figure {
    pub fn add(&mut self, sample: f64) {
        self.count += 1.0;
        self.sum += sample;
        self.squares += sample * sample;
        self.most = self.most.max(sample);
    }

    pub fn mean(&self) -> f64 {
        self.sum / self.count
    }

    pub fn deviation(&self) -> f64 {
        (self.squares / self.count - self.mean() * self.mean())
            .max(0.0)
            .sqrt()
    }
}

/// A member's names, ascending.
fn names(member: &Member) -> impl Iterator<Item = u32> + '_ {
    member.names[1..=member.count]
        .iter()
        .map(|&name| name as u32)
}

/// The directory that an image shows: the names and values found by reading all members.
pub fn directory(suite: &Suite) -> BTreeMap<u32, u32> {
    let mut directory = BTreeMap::new();
    for name in suite.members[..suite.count].iter().flat_map(names) {
        let found = suite
            .lookup(suite.all(), name)
            .expect("all members, a name in range");
        if let second::member::Reading::Entry { value, .. } = found.reading {
            directory.insert(name, u32::from(value));
        }
    }
    directory
}

/// The leftovers of a member in each space between neighbouring names of the directory, LOW
/// and HIGH counted.
pub fn leftovers(member: &Member, directory: &BTreeMap<u32, u32>) -> Vec<usize> {
    let mut spaces = Vec::new();
    let mut held = names(member).peekable();
    for &name in directory.keys() {
        let mut below = 0;
        while held.next_if(|&entry| entry < name).is_some() {
            below += 1;
        }
        spaces.push(below);
        held.next_if_eq(&name);
    }
    spaces.push(held.count());
    spaces
}

/// The entries of a member strictly between two ends.
pub fn between(member: &Member, low: Option<u32>, high: Option<u32>) -> usize {
    names(member)
        .filter(|&name| low.is_none_or(|low| name > low) && high.is_none_or(|high| name < high))
        .count()
}
