//! A run of changes through the bench call: three members with one vote each, R 2 and W 2.

use std::collections::BTreeMap;
use std::ops::Bound::{Excluded, Unbounded};

use second::bench::{Asked, ANSWER, INSERT, REMOVE, UPDATE};
use second::calls::{Call, Outcome};
use second::image;
use second::member::{LARGEST_NAME, LARGEST_VALUE};
use second::random::Random;
use second::refusal::Refusal;
use second::suite::Suite;

use crate::figures::{between, directory, leftovers, Figure};

/// Sets of two members, R and W being 2: no smaller set has enough votes.
const PAIRS: [u32; 3] = [3, 5, 6];

pub struct Run {
    random: Random,
    /// The directory is held between so many names.
    fewest: usize,
    most: usize,
    image: Vec<u8>,
    /// The plain directory, which says what to insert, update and remove.
    plain: BTreeMap<u32, u32>,
    /// Entries in a member for each name of the directory, and in all members for three times that.
    pub size_ratio: Figure,
    pub suite_ratio: Figure,
    /// Leftovers between the neighbours of each name, in each member.
    pub delete_list: Figure,
    /// Leftovers in the lowest and the highest space of the directory, and in each other one.
    pub outer: Figure,
    pub inner: Figure,
    /// Entries that a removal dropped from a written member, the removed name not counted.
    pub coalesced: Figure,
    pub names: Figure,
    /// Calls refused with 13.
    pub refused: usize,
}

impl Run {
    /// A fresh suite, then inserts up to so many names, about which the directory is held.
    pub fn new(seed: u64, names: usize) -> Run {
        let fresh = Suite::create(2, 2, &[1, 1, 1]).expect("a majority");
        let mut image = vec![0; image::length(&fresh)];
        image::write(&fresh, &mut image).expect("room");
        let mut run = Run {
            random: Random::new(seed),
            fewest: names - names / 5,
            most: names + names / 5,
            image,
            plain: BTreeMap::new(),
            size_ratio: Figure::default(),
            suite_ratio: Figure::default(),
            delete_list: Figure::default(),
            outer: Figure::default(),
            inner: Figure::default(),
            coalesced: Figure::default(),
            names: Figure::default(),
            refused: 0,
        };
        while run.plain.len() < names {
            run.change(INSERT, false);
        }
        run
    }

    /// So many accepted changes, inserts, updates and removals equally likely. An insert at the
    /// most names becomes a removal, and a removal at the fewest an insert.
    pub fn operations(&mut self, count: u64, measured: bool) {
        let mut done = 0;
        while done < count {
            let op = match self.random.pick(&[INSERT, UPDATE, REMOVE]) {
                INSERT if self.plain.len() >= self.most => REMOVE,
                REMOVE if self.plain.len() <= self.fewest => INSERT,
                op => op,
            };
            if self.change(op, measured) {
                done += 1;
                if measured {
                    self.measure();
                }
            }
        }
    }

    /// A change with random sets and a random name, absent for an insert and else present; gives
    /// whether it was accepted. Refusal 13 alone is expected.
    fn change(&mut self, op: u32, measured: bool) -> bool {
        let name = if op == INSERT {
            self.absent()
        } else {
            let at = self.random.below(self.plain.len());
            *self.plain.keys().nth(at).expect("a name for each place")
        };
        let value = self.random.between(0, LARGEST_VALUE);
        let asked = Asked {
            op,
            read_set: self.random.pick(&PAIRS),
            write_set: self.random.pick(&PAIRS),
            name,
            value,
        };
        let outcome = self.step(asked);
        if outcome.result == Refusal::Full.number() {
            self.refused += 1;
            return false;
        }
        assert_eq!(outcome.result, 0, "an accepted call: {asked:?}");
        if op == REMOVE && measured {
            self.coalesce(asked);
        }
        let length = image::length_in_front(&outcome.image_out).expect("a whole image");
        self.image = outcome.image_out[..length].to_vec();
        if op == REMOVE {
            self.plain.remove(&name);
        } else {
            self.plain.insert(name, value);
        }
        true
    }

    fn absent(&mut self) -> u32 {
        loop {
            let name = self.random.between(0, LARGEST_NAME);
            if !self.plain.contains_key(&name) {
                return name;
            }
        }
    }

    fn step(&self, asked: Asked) -> Outcome {
        let call = Call {
            asked,
            image_in: self.image.clone(),
            image_out: image::LONGEST,
            answer: ANSWER,
        };
        call.outcome(directory::step, 0)
    }

    /// What a removal drops, from the image before it: in each written member, between the name's neighbours.
    fn coalesce(&mut self, asked: Asked) {
        let suite = image::read(&self.image).expect("the bench call's own image");
        let below = self.plain.range(..asked.name).next_back();
        let above = self.plain.range((Excluded(asked.name), Unbounded)).next();
        let (low, high) = (below.map(|entry| *entry.0), above.map(|entry| *entry.0));
        for i in (0..suite.count).filter(|i| asked.write_set >> i & 1 == 1) {
            let member = &suite.members[i];
            let own = usize::from(member.names.contains(&(asked.name as i32)));
            self.coalesced
                .add((between(member, low, high) - own) as f64);
        }
    }

    /// A name's delete list is what stands in the two spaces beside it.
    fn spaces(&mut self, leftovers: &[usize]) {
        for sides in leftovers.windows(2) {
            self.delete_list.add((sides[0] + sides[1]) as f64);
        }
        let [low, inner @ .., high] = leftovers else {
            unreachable!("a directory with a name has two spaces at least");
        };
        self.outer.add(*low as f64);
        self.outer.add(*high as f64);
        inner.iter().for_each(|&count| self.inner.add(count as f64));
    }

    /// The figures of the suite as it is now. Its directory must be the plain one.
    fn measure(&mut self) {
        let suite = image::read(&self.image).expect("the bench call's own image");
        let shown = directory(&suite);
        assert_eq!(shown, self.plain, "the directory is the plain one");
        let names = shown.len() as f64;
        self.names.add(names);
        let mut entries = 0;
        for member in &suite.members[..suite.count] {
            entries += member.count;
            self.size_ratio.add(member.count as f64 / names);
            self.spaces(&leftovers(member, &shown));
        }
        self.suite_ratio
            .add(entries as f64 / suite.count as f64 / names);
    }
}
