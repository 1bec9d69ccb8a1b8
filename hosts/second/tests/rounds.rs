//! Ties, and the two rounds of a neighbour query.

use second::member::{Entry, Member, Reading};
use second::suite::Written;

use crate::build::{member, suite};

#[test]
fn ties_go_to_the_lowest_numbered_member() {
    let suite = suite(
        1,
        3,
        &[
            member(3, &[]),
            member(0, &[(5, 3, 1, 0)]),
            member(0, &[(5, 3, 2, 0)]),
        ],
    );
    assert_eq!(
        suite.lookup(7, 5).unwrap().reading,
        Reading::Gap { version: 3 }
    );
    assert_eq!(
        suite.lookup(6, 5).unwrap().reading,
        Reading::Entry {
            version: 3,
            value: 1
        }
    );
}

#[test]
fn a_tie_in_round_one_too() {
    // Both gaps around 20 have version 5; the lowest-numbered member's ends are 10 and 30,
    // which are older than the other's gap.
    let near = member(0, &[(10, 3, 1, 5), (30, 3, 1, 0)]);
    let far = member(0, &[(8, 3, 2, 5), (32, 3, 2, 0)]);
    let ends = |members: [Member; 2]| {
        let near = suite(2, 1, &members).neighbours(3, 20).unwrap();
        (near.below.name, near.above.name)
    };
    assert_eq!(ends([near.clone(), far.clone()]), (10, 30));
    assert_eq!(ends([far, near]), (8, 32));
}

#[test]
fn the_predecessor_s_version_is_the_highest_offered() {
    // Member 0 wins round one with the newest gap, but its 10 is stale.
    let stale = member(0, &[(10, 1, 1, 8), (20, 7, 1, 0)]);
    let fresh = member(0, &[(10, 6, 2, 0), (20, 7, 1, 0)]);
    let level = member(0, &[(10, 6, 3, 0), (20, 7, 1, 0)]);
    let mut suite = suite(3, 1, &[stale, fresh, level]);
    let near = suite.neighbours(7, 20).unwrap();
    assert_eq!(
        near.below,
        Entry {
            name: 10,
            version: 6,
            value: 2
        }
    );
    assert_eq!(
        suite.remove(7, 1, 20),
        Ok(Written {
            version: 9,
            requests: 7
        })
    );
    assert_eq!(suite.members[0], member(0, &[(10, 6, 2, 9)]));
}

#[test]
fn round_two_passes_over_leftovers_and_finds_newer_entries() {
    // Member 0's gap of version 5 reaches from LOW to HIGH; 10 and 30 are leftovers of
    // before, 12 and 28 came later.
    let wide = member(5, &[]);
    let other = member(
        0,
        &[
            (10, 4, 1, 0),
            (12, 6, 2, 0),
            (18, 5, 3, 0),
            (22, 5, 4, 0),
            (28, 6, 5, 0),
            (30, 4, 6, 0),
        ],
    );
    let suite = suite(2, 1, &[wide, other]);
    let near = suite.neighbours(3, 20).unwrap();
    assert_eq!(
        near.below,
        Entry {
            name: 12,
            version: 6,
            value: 2
        }
    );
    assert_eq!(
        near.above,
        Entry {
            name: 28,
            version: 6,
            value: 5
        }
    );
    assert_eq!(near.requests, 4);
    let near = suite.neighbours(3, 5).unwrap();
    assert_eq!((near.below.name, near.above.name), (-1, 12));
}
