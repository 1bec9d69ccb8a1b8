//! The suite: creation and the five calls, with their refusals in the paper's order.

use crate::member::{Entry, Member, Reading, LARGEST_NAME, LARGEST_VALUE, LARGEST_VERSION};
use crate::refusal::Refusal;

pub const MOST_MEMBERS: usize = 8;
pub const LARGEST_VOTE: u32 = 15;

#[derive(Clone, PartialEq, Eq, Debug)]
pub struct Suite {
    /// R, the votes that make a read set.
    pub read: u32,
    /// W, the votes that make a write set.
    pub write: u32,
    pub count: usize,
    pub votes: [u32; MOST_MEMBERS],
    pub members: [Member; MOST_MEMBERS],
}

#[derive(Clone, Copy, PartialEq, Eq, Debug)]
pub struct Found {
    pub reading: Reading,
    pub requests: u32,
}

#[derive(Clone, Copy, PartialEq, Eq, Debug)]
pub struct Written {
    pub version: u32,
    pub requests: u32,
}

#[derive(Clone, Copy, PartialEq, Eq, Debug)]
pub struct Neighbours {
    pub below: Entry,
    pub above: Entry,
    pub requests: u32,
}

/// R, W and V as a suite must have them. R and W may be any numbers.
pub fn quorums(read: u32, write: u32, votes: &[u32]) -> bool {
    let all: u32 = votes.iter().sum();
    let fits = |quorum: u32| 1 <= quorum && quorum <= all;
    fits(read) && fits(write) && read + write > all
}

impl Suite {
    /// Room for a suite, before anything is known of it. It is not sound.
    pub const BLANK: Suite = Suite {
        read: 0,
        write: 0,
        count: 0,
        votes: [0; MOST_MEMBERS],
        members: [Member::FRESH; MOST_MEMBERS],
    };

    pub fn create(read: u32, write: u32, votes: &[u32]) -> Result<Suite, Refusal> {
        if votes.is_empty() || votes.len() > MOST_MEMBERS {
            return Err(Refusal::Members);
        }
        if votes.iter().any(|&vote| vote > LARGEST_VOTE) {
            return Err(Refusal::Vote);
        }
        if !quorums(read, write, votes) {
            return Err(Refusal::Quorum);
        }
        let mut suite = Suite {
            read,
            write,
            count: votes.len(),
            ..Suite::BLANK
        };
        suite.votes[..votes.len()].copy_from_slice(votes);
        Ok(suite)
    }

    /// The set of all members.
    #[inline]
    pub fn all(&self) -> u32 {
        (1 << self.count) - 1
    }

    pub fn lookup(&self, read_set: u32, name: u32) -> Result<Found, Refusal> {
        let name = checked_name(name)?;
        self.check_sets(read_set, None)?;
        Ok(Found {
            reading: self.highest(read_set, name),
            requests: read_set.count_ones(),
        })
    }

    pub fn insert(
        &mut self,
        read_set: u32,
        write_set: u32,
        name: u32,
        value: u32,
    ) -> Result<Written, Refusal> {
        self.put(read_set, write_set, name, value, |reading| match reading {
            Reading::Entry { .. } => Err(Refusal::Present),
            Reading::Gap { version } => Ok(version),
        })
    }

    pub fn update(
        &mut self,
        read_set: u32,
        write_set: u32,
        name: u32,
        value: u32,
    ) -> Result<Written, Refusal> {
        self.put(read_set, write_set, name, value, version_if_present)
    }

    pub fn neighbours(&self, read_set: u32, name: u32) -> Result<Neighbours, Refusal> {
        let name = checked_name(name)?;
        self.check_sets(read_set, None)?;
        let slots = self.slots(read_set, name);
        Ok(Neighbours {
            below: self.below(read_set, &slots).neighbour,
            above: self.above(read_set, &slots, name).neighbour,
            requests: 2 * read_set.count_ones(),
        })
    }

    pub fn remove(&mut self, read_set: u32, write_set: u32, name: u32) -> Result<Written, Refusal> {
        let name = checked_name(name)?;
        self.check_sets(read_set, Some(write_set))?;
        let version = version_if_present(self.highest(read_set, name))?;
        let slots = self.slots(read_set, name);
        let below = self.below(read_set, &slots);
        let above = self.above(read_set, &slots, name);
        let version = next(version.max(below.gap).max(above.gap))?;
        let (p, s) = (below.neighbour, above.neighbour);
        if !indices(write_set).all(|i| self.members[i].fits_coalesce(p.name, s.name)) {
            return Err(Refusal::Full);
        }
        for i in indices(write_set) {
            self.members[i].coalesce(p, s, version);
        }
        Ok(Written {
            version,
            requests: 2 * read_set.count_ones() + write_set.count_ones(),
        })
    }

    /// Insert and update differ only in which reading they go on from.
    #[inline]
    fn put(
        &mut self,
        read_set: u32,
        write_set: u32,
        name: u32,
        value: u32,
        goes_on: fn(Reading) -> Result<u32, Refusal>,
    ) -> Result<Written, Refusal> {
        let name = checked_name(name)?;
        if value > LARGEST_VALUE {
            return Err(Refusal::Value);
        }
        self.check_sets(read_set, Some(write_set))?;
        let version = next(goes_on(self.highest(read_set, name))?)?;
        if !indices(write_set).all(|i| self.members[i].fits_write(name)) {
            return Err(Refusal::Full);
        }
        let entry = Entry {
            name,
            version,
            value: value as u16,
        };
        for i in indices(write_set) {
            self.members[i].write(entry);
        }
        Ok(Written {
            version,
            requests: read_set.count_ones() + write_set.count_ones(),
        })
    }

    /// Refusals 7 (for either set), 8 and 9.
    #[inline]
    fn check_sets(&self, read_set: u32, write_set: Option<u32>) -> Result<(), Refusal> {
        if (read_set | write_set.unwrap_or(0)) > self.all() {
            return Err(Refusal::NoSuchMember);
        }
        if self.votes_of(read_set) < self.read {
            return Err(Refusal::ReadVotes);
        }
        match write_set {
            Some(set) if self.votes_of(set) < self.write => Err(Refusal::WriteVotes),
            _ => Ok(()),
        }
    }

    #[inline]
    fn votes_of(&self, set: u32) -> u32 {
        indices(set).map(|i| self.votes[i]).sum()
    }

    /// The reading with the highest version; on a tie the lowest-numbered member's.
    #[inline]
    fn highest(&self, read_set: u32, name: i32) -> Reading {
        first_best(
            indices(read_set).map(|i| {
                let member = &self.members[i];
                member.reading(member.slot(name), name)
            }),
            |reading, best| reading.version() > best.version(),
        )
    }

    /// Where `name` stands in each member of the set.
    #[inline]
    fn slots(&self, set: u32, name: i32) -> [usize; MOST_MEMBERS] {
        let mut slots = [0; MOST_MEMBERS];
        for i in indices(set) {
            slots[i] = self.members[i].slot(name);
        }
        slots
    }
}

/// The best of the answers; the first of equals, since members come in ascending order.
#[inline(always)]
pub(crate) fn first_best<T>(
    mut answers: impl Iterator<Item = T>,
    better: impl Fn(&T, &T) -> bool,
) -> T {
    let mut best = answers
        .next()
        .expect("a read set holds votes, so some member answers");
    for answer in answers {
        if better(&answer, &best) {
            best = answer;
        }
    }
    best
}

/// The members that a set names, ascending.
#[inline]
pub(crate) fn indices(mut set: u32) -> impl Iterator<Item = usize> {
    std::iter::from_fn(move || {
        (set != 0).then(|| {
            let i = set.trailing_zeros() as usize;
            set &= set - 1;
            i % MOST_MEMBERS
        })
    })
}

#[inline]
fn checked_name(name: u32) -> Result<i32, Refusal> {
    if name > LARGEST_NAME {
        return Err(Refusal::Name);
    }
    Ok(name as i32)
}

fn version_if_present(reading: Reading) -> Result<u32, Refusal> {
    match reading {
        Reading::Entry { version, .. } => Ok(version),
        Reading::Gap { .. } => Err(Refusal::Absent),
    }
}

#[inline]
fn next(version: u32) -> Result<u32, Refusal> {
    if version >= LARGEST_VERSION {
        return Err(Refusal::Version);
    }
    Ok(version + 1)
}
