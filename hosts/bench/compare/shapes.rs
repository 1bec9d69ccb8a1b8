//! Images of every shape: 1 to 8 members, 0 to 32 entries in each.

use second::bench::{self, Asked, ANSWER, LOOKUP, NEIGHBOURS};
use second::calls::Call;
use second::image;
use second::member::{Member, LARGEST_NAME, LARGEST_VERSION, PLACES};
use second::suite::{Suite, MOST_MEMBERS};

use crate::comparison::Comparison;
use crate::images;

/// The names of a member with so many entries, from 0 up to the largest.
const STEP: u32 = LARGEST_NAME / 33;

/// A suite of members with one vote each and so many entries each. All members agree.
pub fn suite(members: usize, entries: usize) -> Suite {
    let all = members as u32;
    let mut suite = Suite::create(all / 2 + 1, all / 2 + 1, &vec![1; members]).expect("a majority");
    for member in &mut suite.members[..members] {
        *member = rows(entries);
    }
    suite
}

/// So many entries, the largest name among them where there are 32.
fn rows(entries: usize) -> Member {
    let mut member = Member {
        count: entries,
        ..Member::FRESH
    };
    member.gaps[0] = 3;
    for slot in 1..=entries {
        let last = slot == PLACES;
        let name = if last {
            LARGEST_NAME
        } else {
            slot as u32 * STEP
        };
        member.names[slot] = name as i32;
        member.versions[slot] = if last { LARGEST_VERSION } else { 5 };
        member.values[slot] = slot as u16 * 2_047;
        member.gaps[slot] = 4;
    }
    member
}

/// Every operation on a present and on an absent name of every shape, with image out
/// exactly as long as the new image, a byte shorter, longer and empty, and answers of 0, 15, 16
/// and 17 bytes.
pub fn every() -> Comparison {
    let mut comparison = Comparison::default();
    for members in 1..=MOST_MEMBERS {
        for entries in 0..=PLACES {
            let suite = suite(members, entries);
            for op in LOOKUP..=NEIGHBOURS + 1 {
                for name in [STEP, STEP + 1] {
                    lengths(&mut comparison, &suite, op, name);
                }
            }
        }
    }
    let longest = image::length(&suite(MOST_MEMBERS, PLACES));
    assert_eq!(longest, image::LONGEST, "the longest image is among them");
    comparison
}

fn lengths(comparison: &mut Comparison, suite: &Suite, op: u32, name: u32) {
    let asked = Asked::new(op, suite.all(), suite.all(), name, 7);
    let mut after = suite.clone();
    if op <= NEIGHBOURS {
        // A refusal leaves the suite as it was, and then no length of image out matters.
        let _ = asked.ask(&mut after);
    }
    let needed = image::length(&after);
    for image_out in [needed, needed - 1, needed + 1, image::LONGEST + 9, 0] {
        for answer in [0, ANSWER - 1, ANSWER, ANSWER + 1] {
            comparison.compare(&Call {
                asked,
                image_in: images::of(suite),
                image_out,
                answer,
            });
        }
    }
}

/// Every operation, and a number that is none, or `only` the one given, on an image: both sets
/// and the names are given too.
pub fn operations(
    comparison: &mut Comparison,
    image: &[u8],
    sets: u32,
    names: &[u32],
    only: Option<u32>,
) {
    for op in LOOKUP..=NEIGHBOURS + 1 {
        if only.is_some_and(|only| only != op) {
            continue;
        }
        for &name in names {
            comparison.compare(&Call {
                asked: Asked::new(op, sets, sets, name, 65_535),
                image_in: image.to_vec(),
                image_out: image::LONGEST + 3,
                answer: bench::ANSWER,
            });
        }
    }
}
