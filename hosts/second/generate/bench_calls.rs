//! Bench calls: lone ones on suites and images of any kind, and long histories in
//! which each call starts from the suite that the one before left.

use second::bench::{self, Asked};
use second::calls::Call;
use second::image;
use second::suite::Suite;

use crate::images;
use crate::suites::{self, any_name, any_set, any_value};
use second::random::Random;

pub struct Source {
    names: Vec<u32>,
    suite: Suite,
    /// Calls still to come before another suite is taken.
    left: usize,
}

impl Source {
    pub fn new(random: &mut Random) -> Source {
        let names = suites::names(random);
        let suite = if random.once_in(3) {
            suites::reached(random, &names)
        } else {
            suites::arbitrary(random, &names)
        };
        Source {
            names,
            suite,
            left: random.pick(&[1, 5, 60]),
        }
    }

    pub fn next(&mut self, random: &mut Random) -> Call {
        if self.left == 0 {
            *self = Source::new(random);
        }
        self.left -= 1;
        let mut call = self.call(random);
        if random.once_in(6) {
            if let Some(crowded) = suites::crowded(random, &self.suite, &self.names) {
                let asked = &mut call.asked;
                (asked.read_set, asked.write_set, asked.name) = crowded;
            }
        }
        if let Some(suite) = after(&call) {
            self.suite = suite;
        }
        let needed = image::length(&self.suite);
        call.image_out = match random.below(16) {
            0 => 0,
            1 | 2 => needed.saturating_sub(1),
            3 => random.below(needed + 1),
            4..=8 => needed,
            9..=11 => needed + random.below(20),
            _ => image::LONGEST,
        };
        call
    }

    fn call(&self, random: &mut Random) -> Call {
        let suite = &self.suite;
        let op = if random.once_in(30) {
            random.pick(&[5, 6, 256, u32::MAX])
        } else {
            random.between(0, 4)
        };
        Call {
            asked: Asked {
                op,
                read_set: any_set(random, suite, suite.read),
                write_set: any_set(random, suite, suite.write),
                name: any_name(random, &self.names),
                value: any_value(random),
            },
            image_in: if random.once_in(7) {
                images::damaged(random, suite)
            } else {
                images::of(suite)
            },
            image_out: 0,
            answer: if random.once_in(15) {
                random.below(bench::ANSWER)
            } else {
                random.pick(&[16, 16, 17, 24])
            },
        }
    }
}

/// The suite that a change with room enough leaves, if it is not refused.
fn after(call: &Call) -> Option<Suite> {
    if !matches!(call.asked.op, bench::INSERT | bench::UPDATE | bench::REMOVE) {
        return None;
    }
    let mut suite = image::read(&call.image_in).ok()?;
    call.asked.ask(&mut suite).ok()?;
    Some(suite)
}
