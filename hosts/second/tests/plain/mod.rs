//! The paper's sentences once more, word for word and slowly.

pub mod image;
pub mod line;
pub mod member;

use member::{Entry, Member};

#[derive(Clone, PartialEq, Eq, Debug)]
pub struct Suite {
    pub read: u64,
    pub write: u64,
    pub votes: Vec<u64>,
    pub members: Vec<Member>,
}

pub fn quorums_bad(read: u64, write: u64, votes: &[u64]) -> bool {
    let v: u64 = votes.iter().sum();
    read == 0 || write == 0 || read > v || write > v || read + write <= v
}

pub fn create(read: u64, write: u64, votes: &[u64]) -> Result<Suite, u32> {
    if votes.is_empty() || votes.len() > 8 {
        return Err(2);
    }
    if votes.iter().any(|vote| *vote > 15) {
        return Err(3);
    }
    if quorums_bad(read, write, votes) {
        return Err(4);
    }
    Ok(Suite {
        read,
        write,
        votes: votes.to_vec(),
        members: vec![Member::fresh(); votes.len()],
    })
}

/// What a call takes; an operation without a write set or a value has none here.
#[derive(Clone, Copy)]
pub struct Asked {
    pub read_set: u64,
    pub write_set: Option<u64>,
    pub name: u64,
    pub value: Option<u64>,
}

/// One side of a name: the highest gap version there, and the neighbour.
struct Side {
    gap: u64,
    neighbour: (i64, Entry),
}

impl Suite {
    fn named(&self, set: u64) -> Vec<usize> {
        (0..self.members.len())
            .filter(|i| set & (1 << i) != 0)
            .collect()
    }

    fn votes_in(&self, set: u64) -> u64 {
        self.named(set).iter().map(|i| self.votes[*i]).sum()
    }

    fn check(&self, asked: Asked) -> Result<(), u32> {
        let sets = [Some(asked.read_set), asked.write_set];
        if asked.name > 1_048_575 {
            Err(5)
        } else if asked.value.is_some_and(|value| value > 65_535) {
            Err(6)
        } else if sets
            .iter()
            .flatten()
            .any(|set| *set >= 1 << self.members.len())
        {
            Err(7)
        } else if self.votes_in(asked.read_set) < self.read {
            Err(8)
        } else if asked
            .write_set
            .is_some_and(|set| self.votes_in(set) < self.write)
        {
            Err(9)
        } else {
            Ok(())
        }
    }

    fn answer_count(&self, set: u64) -> u64 {
        self.named(set).len() as u64
    }

    fn reading(&self, set: u64, name: i64) -> (bool, u64, u64) {
        let readings: Vec<_> = self
            .named(set)
            .iter()
            .map(|i| self.members[*i].reading(name))
            .collect();
        let highest = readings.iter().map(|reading| reading.1).max().unwrap();
        *readings
            .iter()
            .find(|reading| reading.1 == highest)
            .unwrap()
    }

    /// Present, version, value, requests.
    pub fn lookup(&self, asked: Asked) -> Result<[u64; 4], u32> {
        self.check(asked)?;
        let (present, version, value) = self.reading(asked.read_set, asked.name as i64);
        Ok([
            u64::from(present),
            version,
            value,
            self.answer_count(asked.read_set),
        ])
    }

    /// Version and requests of an insert (`present` false) or update (`present` true).
    pub fn put(&mut self, asked: Asked, present: bool) -> Result<[u64; 4], u32> {
        let [found, highest, _, requests] = self.lookup(asked)?;
        if (found == 1) != present {
            return Err(if present { 11 } else { 10 });
        }
        let entry = Entry {
            version: highest + 1,
            value: asked.value.unwrap(),
        };
        let set = asked.write_set.unwrap();
        self.change(set, entry.version, |member| {
            member.write(asked.name as i64, entry)
        })?;
        Ok([entry.version, requests + self.answer_count(set), 0, 0])
    }

    /// Changes each member of the set, or none where 12 or 13 is due.
    fn change(&mut self, set: u64, version: u64, change: impl Fn(&mut Member)) -> Result<(), u32> {
        if version > 16_777_215 {
            return Err(12);
        }
        let mut changed = self.clone();
        for i in self.named(set) {
            change(&mut changed.members[i]);
            if changed.members[i].held() > 32 {
                return Err(13);
            }
        }
        *self = changed;
        Ok(())
    }

    fn below(&self, set: u64, x: i64) -> Side {
        let named: Vec<&Member> = self.named(set).iter().map(|i| &self.members[*i]).collect();
        let gap = |member: &Member| member.gaps[&member.next_below(x)];
        let v = named.iter().map(|member| gap(member)).max().unwrap();
        let k = named
            .iter()
            .find(|member| gap(member) == v)
            .unwrap()
            .next_below(x);
        let offers = named.iter().filter_map(|member| {
            let candidates = member
                .entries
                .range(k..x)
                .filter(|(name, entry)| **name == k || entry.version > v);
            candidates.map(|(name, entry)| (*name, *entry)).last()
        });
        let offers: Vec<(i64, Entry)> = offers.collect();
        let name = offers.iter().map(|offer| offer.0).max().unwrap();
        Side {
            gap: v,
            neighbour: newest(&offers, name),
        }
    }

    fn above(&self, set: u64, x: i64) -> Side {
        let named: Vec<&Member> = self.named(set).iter().map(|i| &self.members[*i]).collect();
        // The gap below the upper end, whichever side of x its lower end lies on.
        let gap = |member: &Member| member.gaps[&member.next_below(member.next_above(x))];
        let v = named.iter().map(|member| gap(member)).max().unwrap();
        let k = named
            .iter()
            .find(|member| gap(member) == v)
            .unwrap()
            .next_above(x);
        let offers = named.iter().filter_map(|member| {
            let mut candidates = member
                .entries
                .range(x + 1..=k)
                .filter(|(name, entry)| **name == k || entry.version > v);
            candidates.next().map(|(name, entry)| (*name, *entry))
        });
        let offers: Vec<(i64, Entry)> = offers.collect();
        let name = offers.iter().map(|offer| offer.0).min().unwrap();
        Side {
            gap: v,
            neighbour: newest(&offers, name),
        }
    }

    /// Predecessor + 1, successor + 1, requests.
    pub fn neighbours(&self, asked: Asked) -> Result<[u64; 4], u32> {
        self.check(asked)?;
        let (set, x) = (asked.read_set, asked.name as i64);
        let (p, s) = (
            self.below(set, x).neighbour.0,
            self.above(set, x).neighbour.0,
        );
        Ok([
            (p + 1) as u64,
            (s + 1) as u64,
            2 * self.answer_count(set),
            0,
        ])
    }

    /// Version and requests.
    pub fn remove(&mut self, asked: Asked) -> Result<[u64; 4], u32> {
        let [found, highest, _, _] = self.lookup(asked)?;
        if found == 0 {
            return Err(11);
        }
        let (set, x) = (asked.read_set, asked.name as i64);
        let (below, above) = (self.below(set, x), self.above(set, x));
        let version = 1 + highest.max(below.gap).max(above.gap);
        let write_set = asked.write_set.unwrap();
        self.change(write_set, version, |member| {
            member.coalesce(below.neighbour, above.neighbour, version)
        })?;
        Ok([
            version,
            2 * self.answer_count(set) + self.answer_count(write_set),
            0,
            0,
        ])
    }
}

/// Of the offers of a name, the first with the highest version.
fn newest(offers: &[(i64, Entry)], name: i64) -> (i64, Entry) {
    let of_name: Vec<&(i64, Entry)> = offers.iter().filter(|offer| offer.0 == name).collect();
    let highest = of_name.iter().map(|offer| offer.1.version).max().unwrap();
    **of_name
        .iter()
        .find(|offer| offer.1.version == highest)
        .unwrap()
}
