//! A suite that only calls have made says what one plain directory says, whichever
//! good sets the calls name.

use std::collections::BTreeMap;

use second::member::{Reading, HIGH, LOW};
use second::refusal::Refusal;
use second::sound;
use second::suite::Suite;

use crate::suites::{good_set, names, votes};
use second::random::Random;

type Directory = BTreeMap<u32, u16>;

/// One call on both; a refusal for want of room must leave both as they were.
fn change(random: &mut Random, suite: &mut Suite, directory: &mut Directory, name: u32) {
    let read_set = good_set(random, suite, suite.read);
    let write_set = good_set(random, suite, suite.write);
    let value = random.bits() as u16;
    let present = directory.contains_key(&name);
    let operation = random.below(3);
    let result = match operation {
        0 => suite.insert(read_set, write_set, name, u32::from(value)),
        1 => suite.update(read_set, write_set, name, u32::from(value)),
        _ => suite.remove(read_set, write_set, name),
    };
    match (result, operation) {
        (Ok(_), 2) => assert!(directory.remove(&name).is_some()),
        (Ok(_), 1) => assert!(directory.insert(name, value).is_some()),
        (Ok(_), _) => assert!(directory.insert(name, value).is_none()),
        (Err(Refusal::Full), 0) => assert!(!present),
        (Err(Refusal::Full), _) => assert!(present),
        (Err(refusal), 0) => assert!(present && refusal == Refusal::Present),
        (Err(refusal), _) => assert!(!present && refusal == Refusal::Absent),
    }
}

fn compare(random: &mut Random, suite: &Suite, directory: &Directory, name: u32) {
    let read_set = good_set(random, suite, suite.read);
    let found = match suite.lookup(read_set, name).unwrap().reading {
        Reading::Entry { value, .. } => Some(value),
        Reading::Gap { .. } => None,
    };
    assert_eq!(found, directory.get(&name).copied());
    let near = suite.neighbours(read_set, name).unwrap();
    let below = directory
        .range(..name)
        .next_back()
        .map_or(LOW, |entry| *entry.0 as i32);
    let above = directory
        .range(name + 1..)
        .next()
        .map_or(HIGH, |entry| *entry.0 as i32);
    assert_eq!((near.below.name, near.above.name), (below, above));
}

#[test]
fn a_suite_is_one_directory() {
    let mut random = Random::new(14);
    for _ in 0..200 {
        let names = names(&mut random);
        let (read, write, votes) = votes(&mut random);
        let mut suite = Suite::create(read, write, &votes).unwrap();
        let mut directory = Directory::new();
        for _ in 0..300 {
            let name = random.pick(&names);
            change(&mut random, &mut suite, &mut directory, name);
            let name = random.pick(&names);
            compare(&mut random, &suite, &directory, name);
        }
        sound::judge(&suite).unwrap();
    }
}
