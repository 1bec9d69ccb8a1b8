//! Every refusal of creation and of the calls on both sides of its edge, and the order.

use second::member::{LARGEST_NAME, LARGEST_VALUE, LARGEST_VERSION};
use second::refusal::Refusal;
use second::suite::Suite;

use crate::build::{member, suite};

fn refused(suite: &Suite, expected: u32, call: impl Fn(&mut Suite) -> Result<(), Refusal>) {
    let mut after = suite.clone();
    let number = call(&mut after).err().map_or(0, Refusal::number);
    assert_eq!(number, expected);
    assert!(
        number == 0 || after == *suite,
        "a refused call leaves the suite as it was"
    );
}

/// The numbers that lookup, insert, update, remove and neighbours give.
fn five(suite: &Suite, read_set: u32, write_set: u32, name: u32, value: u32, expected: [u32; 5]) {
    refused(suite, expected[0], |suite| {
        suite.lookup(read_set, name).map(|_| ())
    });
    refused(suite, expected[1], |suite| {
        suite.insert(read_set, write_set, name, value).map(|_| ())
    });
    refused(suite, expected[2], |suite| {
        suite.update(read_set, write_set, name, value).map(|_| ())
    });
    refused(suite, expected[3], |suite| {
        suite.remove(read_set, write_set, name).map(|_| ())
    });
    refused(suite, expected[4], |suite| {
        suite.neighbours(read_set, name).map(|_| ())
    });
}

#[test]
fn creation() {
    let number = |read, write, votes: &[u32]| {
        Suite::create(read, write, votes)
            .err()
            .map_or(0, Refusal::number)
    };
    assert_eq!(number(1, 1, &[]), 2);
    assert_eq!(number(1, 1, &[1]), 0);
    assert_eq!(number(8, 1, &[1; 8]), 0);
    assert_eq!(number(9, 1, &[1; 9]), 2);
    assert_eq!(number(0, 0, &[16; 9]), 2, "2 comes before 3 and 4");
    assert_eq!(number(1, 15, &[15]), 0);
    assert_eq!(number(1, 16, &[16]), 3);
    assert_eq!(number(0, 0, &[16]), 3, "3 comes before 4");
    assert_eq!(number(0, 4, &[2, 2]), 4);
    assert_eq!(number(1, 4, &[2, 2]), 0);
    assert_eq!(number(4, 1, &[2, 2]), 0);
    assert_eq!(number(4, 0, &[2, 2]), 4);
    assert_eq!(number(5, 1, &[2, 2]), 4);
    assert_eq!(number(1, 5, &[2, 2]), 4);
    assert_eq!(number(2, 2, &[2, 2]), 4);
    assert_eq!(number(2, 3, &[2, 2]), 0);
    assert_eq!(number(1, 1, &[0, 0]), 4);
    assert_eq!(number(120, 120, &[15; 8]), 0);
    assert_eq!(number(u32::MAX, u32::MAX, &[2, 2]), 4, "no sum wraps");
    assert_eq!(number(1, u32::MAX, &[2, 2]), 4);
}

fn two_of_three() -> Suite {
    let holder = member(0, &[(5, 1, 1, 0), (LARGEST_NAME as i32, 1, 1, 0)]);
    suite(2, 2, &[holder.clone(), holder.clone(), holder])
}

#[test]
fn names_and_values() {
    let suite = two_of_three();
    five(&suite, 3, 3, LARGEST_NAME, 0, [0, 10, 0, 0, 0]);
    five(&suite, 3, 3, LARGEST_NAME + 1, 0, [5; 5]);
    five(&suite, 3, 3, u32::MAX, 0, [5; 5]);
    five(&suite, 8, 8, LARGEST_NAME + 1, LARGEST_VALUE + 1, [5; 5]);
    five(&suite, 3, 3, 6, LARGEST_VALUE, [0, 0, 11, 11, 0]);
    five(&suite, 3, 3, 5, LARGEST_VALUE, [0, 10, 0, 0, 0]);
    five(&suite, 3, 3, 5, LARGEST_VALUE + 1, [0, 6, 6, 0, 0]);
    five(&suite, 8, 8, 5, LARGEST_VALUE + 1, [7, 6, 6, 7, 7]);
}

#[test]
fn sets() {
    let suite = two_of_three();
    five(&suite, 7, 7, 5, 0, [0, 10, 0, 0, 0]);
    five(&suite, 6, 6, 5, 0, [0, 10, 0, 0, 0]);
    five(&suite, 8, 3, 5, 0, [7; 5]);
    five(&suite, 1 << 31 | 3, 3, 5, 0, [7; 5]);
    five(&suite, 3, 8, 5, 0, [0, 7, 7, 7, 0]);
    five(&suite, 1, 8, 5, 0, [8, 7, 7, 7, 8]);
    five(&suite, 4, 4, 5, 0, [8; 5]);
    five(&suite, 3, 4, 5, 0, [0, 9, 9, 9, 0]);
    five(&suite, 3, 0, 6, 0, [0, 9, 9, 9, 0]);
    five(&suite, 3, 6, 6, 0, [0, 0, 11, 11, 0]);
}

#[test]
fn eight_members() {
    let suite = Suite::create(1, 8, &[1; 8]).unwrap();
    five(&suite, 128, 255, 5, 0, [0, 0, 11, 11, 0]);
    five(&suite, 256, 255, 5, 0, [7; 5]);
    five(&suite, 128, 127, 5, 0, [0, 9, 9, 9, 0]);
}

#[test]
fn votes_are_counted_and_not_members() {
    let suite = Suite::create(2, 3, &[2, 1, 1]).unwrap();
    five(&suite, 1, 3, 5, 0, [0, 0, 11, 11, 0]);
    five(&suite, 2, 3, 5, 0, [8; 5]);
    five(&suite, 1, 6, 5, 0, [0, 9, 9, 9, 0]);
}

#[test]
fn new_versions() {
    let limit = LARGEST_VERSION;
    let gap = |version| suite(1, 1, &[member(version, &[])]);
    five(&gap(limit - 1), 1, 1, 5, 0, [0, 0, 11, 11, 0]);
    five(&gap(limit), 1, 1, 5, 0, [0, 12, 11, 11, 0]);
    let entry = |below, version, above| suite(1, 1, &[member(below, &[(5, version, 1, above)])]);
    five(&entry(0, limit - 1, 0), 1, 1, 5, 0, [0, 10, 0, 0, 0]);
    five(&entry(0, limit, 0), 1, 1, 5, 0, [0, 10, 12, 12, 0]);
    five(&entry(limit - 1, 1, 0), 1, 1, 5, 0, [0, 10, 0, 0, 0]);
    five(&entry(limit, 1, 0), 1, 1, 5, 0, [0, 10, 0, 12, 0]);
    five(&entry(0, 1, limit - 1), 1, 1, 5, 0, [0, 10, 0, 0, 0]);
    five(&entry(0, 1, limit), 1, 1, 5, 0, [0, 10, 0, 12, 0]);
}

#[test]
fn full_members() {
    let names: Vec<_> = (1..=32).map(|i| (10 * i, LARGEST_VERSION, 1, 3)).collect();
    let full = member(3, &names);
    let alone = suite(1, 1, std::slice::from_ref(&full));
    five(&alone, 1, 1, 5, 0, [0, 13, 11, 11, 0]);
    five(&alone, 1, 1, 10, 0, [0, 10, 12, 12, 0]);
    let room = member(3, &names[..31]);
    five(
        &suite(1, 1, std::slice::from_ref(&room)),
        1,
        1,
        5,
        0,
        [0, 0, 11, 11, 0],
    );
    // Member 1 holds 5 and the full member 0 does not.
    let holder = member(0, &[(5, 4, 1, 0)]);
    five(
        &suite(1, 2, &[full.clone(), holder.clone()]),
        2,
        3,
        5,
        0,
        [0, 10, 13, 0, 0],
    );
    five(&suite(1, 2, &[room, holder]), 2, 3, 5, 0, [0, 10, 0, 0, 0]);
    // 12 comes before 13.
    let worn = member(0, &[(5, LARGEST_VERSION, 1, LARGEST_VERSION)]);
    five(&suite(1, 2, &[full, worn]), 2, 3, 5, 0, [0, 10, 12, 12, 0]);
}
