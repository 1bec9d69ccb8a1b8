//! The images and the calls that are timed. Every call is accepted.

use second::bench::{Asked, ANSWER, INSERT, LOOKUP, REMOVE, UPDATE};
use second::image;
use second::member::{Entry, Reading, LARGEST_NAME, PLACES};
use second::sound;
use second::suite::{Suite, MOST_MEMBERS};

use second::random::Random;

const OPERATIONS: [&str; 5] = ["lookup", "insert", "update", "remove", "neighbours"];

pub struct Work {
    pub image: &'static str,
    pub operation: &'static str,
    pub image_in: Vec<u8>,
    pub asked: Vec<Asked>,
}

/// Image out and the answer, cleared.
pub fn buffers() -> (Vec<u8>, Vec<u8>) {
    (vec![0; image::LONGEST], vec![0; ANSWER])
}

pub fn all() -> Vec<Work> {
    let (full, leftover) = full();
    let mut works = works("full", &full, (255, 127), &[leftover]);
    let (small, absent) = small();
    works.extend(self::works("small", &small, (3, 6), &absent));
    works
}

/// Each operation on a suite, and those calls that are accepted: lookups and neighbours of
/// names present and absent by turns.
fn works(image: &'static str, suite: &Suite, sets: (u32, u32), absent: &[u32]) -> Vec<Work> {
    let mut image_in = vec![0; image::length(suite)];
    image::write(suite, &mut image_in).expect("room");
    let present = present(suite);
    let turns = present.iter().zip(absent.iter().cycle());
    let both: Vec<u32> = turns.flat_map(|(held, gone)| [*held, *gone]).collect();
    let work = |(op, operation)| {
        let names = match op {
            INSERT => absent,
            UPDATE | REMOVE => &present,
            _ => &both,
        };
        let asked = names
            .iter()
            .map(|&name| Asked::new(op, sets.0, sets.1, name, 7));
        Work {
            image,
            operation,
            image_in: image_in.clone(),
            asked: asked
                .filter(|asked| asked.ask(&mut suite.clone()).is_ok())
                .collect(),
        }
    };
    (LOOKUP..).zip(OPERATIONS).map(work).collect()
}

/// The names in the directory, ascending.
fn present(suite: &Suite) -> Vec<u32> {
    let members = suite.members[..suite.count].iter();
    let mut names: Vec<u32> = members
        .flat_map(|member| &member.names[1..=member.count])
        .map(|&name| name as u32)
        .filter(|&name| is_present(suite, name))
        .collect();
    names.sort_unstable();
    names.dedup();
    names
}

fn is_present(suite: &Suite, name: u32) -> bool {
    let found = suite.lookup(suite.all(), name).expect("all members");
    matches!(found.reading, Reading::Entry { .. })
}

/// Eight members of 32 entries each, the longest image. Seven hold a leftover of which the
/// last one knows that it is gone: a full member takes an insert of that name alone.
fn full() -> (Suite, u32) {
    let step = LARGEST_NAME / (PLACES as u32 + 2);
    let mut suite = Suite::create(2, 7, &[1; MOST_MEMBERS]).expect("R + W over V");
    let all = suite.all();
    for i in 1..=PLACES as u32 {
        suite.insert(all, all, i * step, 1).expect("room for 32");
    }
    let leftover = PLACES as u32 / 2 * step;
    let near = suite.neighbours(all, leftover).expect("all members");
    let last = &mut suite.members[MOST_MEMBERS - 1];
    last.coalesce(near.below, near.above, 2);
    last.write(Entry {
        name: LARGEST_NAME as i32,
        version: 1,
        value: 1,
    });
    sound::judge(&suite).expect("a sound suite");
    assert_eq!(image::length(&suite), image::LONGEST);
    (suite, leftover)
}

/// Three members, R 2 and W 2, 20 names in the directory, after 400 changes through random
/// sets; and as many absent names.
fn small() -> (Suite, Vec<u32>) {
    let mut random = Random::new(20);
    let mut suite = Suite::create(2, 2, &[1, 1, 1]).expect("a majority");
    let names: Vec<u32> = (0..40).map(|_| random.between(0, LARGEST_NAME)).collect();
    let count = |suite: &Suite| {
        names
            .iter()
            .filter(|&&name| is_present(suite, name))
            .count()
    };
    let mut changes = 0;
    while changes < 400 || count(&suite) != 20 {
        let (read_set, write_set) = (random.pick(&[3, 5, 6]), random.pick(&[3, 5, 6]));
        let name = random.pick(&names);
        let done = if is_present(&suite, name) {
            suite.remove(read_set, write_set, name)
        } else if count(&suite) < 21 {
            suite.insert(read_set, write_set, name, 7)
        } else {
            continue;
        };
        changes += usize::from(done.is_ok());
    }
    let absent = names
        .iter()
        .copied()
        .filter(|&name| !is_present(&suite, name))
        .collect();
    (suite, absent)
}
