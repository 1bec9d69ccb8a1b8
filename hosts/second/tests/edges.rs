//! 'Both sides of each edge', and the ways to bring back the dead.

use second::image;
use second::member::{Entry, Reading, LARGEST_VERSION};
use second::refusal::Refusal;
use second::suite::{Suite, Written};

use crate::build::{member, rows, suite};

#[test]
fn votes_and_quorums() {
    assert!(Suite::create(2, 3, &[2, 1, 1]).is_ok());
    assert_eq!(Suite::create(1, 3, &[2, 1, 1]), Err(Refusal::Quorum));
    assert!(Suite::create(1, 1, &[1, 0, 0]).is_ok());
}

#[test]
fn the_empty_set_has_no_votes() {
    let mut suite = Suite::create(1, 1, &[1]).unwrap();
    assert_eq!(suite.lookup(0, 5), Err(Refusal::ReadVotes));
    assert_eq!(suite.neighbours(0, 5), Err(Refusal::ReadVotes));
    assert_eq!(suite.insert(0, 0, 5, 1), Err(Refusal::ReadVotes));
    assert_eq!(suite.insert(1, 0, 5, 1), Err(Refusal::WriteVotes));
}

#[test]
fn versions_at_the_limit() {
    let mut below = suite(1, 1, &[member(0, &[(5, LARGEST_VERSION - 1, 1, 0)])]);
    assert_eq!(
        below.update(1, 1, 5, 2),
        Ok(Written {
            version: LARGEST_VERSION,
            requests: 2
        })
    );
    let before = below.clone();
    assert_eq!(below.update(1, 1, 5, 3), Err(Refusal::Version));
    assert_eq!(below, before);
}

#[test]
fn a_full_member_takes_a_name_whose_leftover_it_holds() {
    // Member 1 knows that 160 is gone; member 0 still holds it and is full.
    let other: Vec<_> = rows(32).into_iter().filter(|row| row.0 != 160).collect();
    let mut newer = other.clone();
    newer[14].3 = 9;
    let mut suite = suite(2, 1, &[member(0, &rows(32)), member(0, &newer)]);
    assert_eq!(
        suite.lookup(3, 160).unwrap().reading,
        Reading::Gap { version: 9 }
    );
    let before = suite.clone();
    assert_eq!(suite.insert(3, 1, 161, 1), Err(Refusal::Full));
    assert_eq!(suite, before);
    assert_eq!(suite.insert(3, 1, 160, 1).unwrap().version, 10);
    assert_eq!(suite.members[0].count, 32);
}

/// Member 0 is full with names 10, 20, 30 and on, without those missing; member 1 has
/// newer entries for 150, 160 (which is to be removed) and 170.
fn before_removal(missing: &[i32]) -> Suite {
    let mut full: Vec<_> = rows(40)
        .into_iter()
        .filter(|row| !missing.contains(&row.0))
        .collect();
    full.truncate(32);
    let newer = [(150, 5, 1, 4), (160, 5, 2, 4), (170, 5, 3, 4)];
    suite(1, 2, &[member(0, &full), member(4, &newer)])
}

#[test]
fn a_removal_from_a_full_member() {
    let mut both = before_removal(&[150, 170]);
    let before = both.clone();
    assert_eq!(both.remove(2, 3, 160), Err(Refusal::Full));
    assert_eq!(both, before);
    for missing in [150, 170] {
        let mut one = before_removal(&[missing]);
        assert_eq!(
            one.remove(2, 3, 160),
            Ok(Written {
                version: 6,
                requests: 4
            })
        );
        assert_eq!(one.members[0].count, 32);
    }
    let mut none = before_removal(&[]);
    assert!(none.remove(2, 3, 160).is_ok());
    assert_eq!(none.members[0].count, 31);
    let mut nothing_dropped = before_removal(&[150, 160]);
    assert_eq!(nothing_dropped.remove(2, 3, 160), Err(Refusal::Full));
    let mut between = suite(1, 2, &[member(0, &rows(31)), member(0, &[(325, 5, 1, 4)])]);
    assert!(
        between.remove(2, 3, 325).is_ok(),
        "LOW and HIGH take no place"
    );
    assert_eq!(between.members[0].count, 0);
}

#[test]
fn freed_places_are_used_again() {
    let mut suite = suite(1, 1, &[member(0, &rows(32))]);
    assert_eq!(suite.insert(1, 1, 5, 1), Err(Refusal::Full));
    suite.remove(1, 1, 20).unwrap();
    assert_eq!(suite.insert(1, 1, 5, 1).unwrap().version, 1);
    assert_eq!(suite.insert(1, 1, 25, 1), Err(Refusal::Full));
}

#[test]
fn every_name_may_be_used() {
    let mut suite = Suite::create(1, 1, &[1]).unwrap();
    for name in [0, 1_048_575] {
        assert_eq!(suite.insert(1, 1, name, 65_535).unwrap().version, 1);
        assert_eq!(
            suite.lookup(1, name).unwrap().reading,
            Reading::Entry {
                version: 1,
                value: 65_535
            }
        );
    }
    let near = suite.neighbours(1, 0).unwrap();
    assert_eq!((near.below.name, near.above.name), (-1, 1_048_575));
    let near = suite.neighbours(1, 1_048_575).unwrap();
    assert_eq!((near.below.name, near.above.name), (0, 1_048_576));
}

#[test]
fn a_gap_between_names_next_to_each_other_counts() {
    // Nothing fits between 5 and 6, yet that gap's version is the one to go on from.
    let mut suite = suite(1, 1, &[member(1, &[(5, 2, 1, 9), (6, 2, 1, 3)])]);
    assert_eq!(
        suite.remove(1, 1, 6),
        Ok(Written {
            version: 10,
            requests: 3
        })
    );
    assert_eq!(suite.members[0], member(1, &[(5, 2, 1, 10)]));
}

#[test]
fn members_without_votes_are_read_and_written() {
    let mut suite = suite(
        1,
        2,
        &[member(0, &[(5, 1, 1, 0)]), member(0, &[(5, 4, 2, 0)])],
    );
    (suite.votes[1], suite.write) = (0, 1);
    assert_eq!(suite.lookup(2, 5), Err(Refusal::ReadVotes));
    assert_eq!(
        suite.lookup(3, 5).unwrap().reading,
        Reading::Entry {
            version: 4,
            value: 2
        }
    );
    assert_eq!(
        suite.update(3, 3, 5, 3),
        Ok(Written {
            version: 5,
            requests: 4
        })
    );
    assert_eq!(
        suite.members[1].entry(1),
        Entry {
            name: 5,
            version: 5,
            value: 3
        }
    );
}

#[test]
fn coalescing_keeps_the_gaps_outside() {
    let reader = member(0, &[(10, 7, 1, 2), (15, 7, 9, 2), (20, 7, 2, 2)]);
    // Both ends are missing here: each splits the gap it falls in.
    let writer = member(3, &[(12, 1, 1, 4), (17, 1, 1, 5)]);
    let mut suite = suite(1, 2, &[reader, writer]);
    assert_eq!(suite.remove(1, 3, 15).unwrap().version, 8);
    assert_eq!(suite.members[0], member(0, &[(10, 7, 1, 8), (20, 7, 2, 2)]));
    assert_eq!(suite.members[1], member(3, &[(10, 7, 1, 8), (20, 7, 2, 5)]));
}

#[test]
fn both_ends_in_one_gap() {
    let reader = member(0, &[(10, 7, 1, 2), (15, 7, 9, 2), (20, 7, 2, 2)]);
    let mut suite = suite(1, 2, &[reader, member(3, &[])]);
    suite.remove(1, 3, 15).unwrap();
    assert_eq!(suite.members[1], member(3, &[(10, 7, 1, 8), (20, 7, 2, 3)]));
}

#[test]
fn an_added_entry_leaves_its_gap_s_version_on_both_sides() {
    let mut suite = suite(1, 1, &[member(4, &[])]);
    assert_eq!(suite.insert(1, 1, 9, 1).unwrap().version, 5);
    assert_eq!(suite.members[0], member(4, &[(9, 5, 1, 4)]));
}

#[test]
fn the_longest_image() {
    let full: Vec<_> = (0..8).map(|_| member(LARGEST_VERSION, &rows(32))).collect();
    assert_eq!(image::length(&suite(1, 8, &full)), image::LONGEST);
}
