//! Damaged images: cut at every byte, every bit flipped, random bytes, and the generator's.

use second::bench::NEIGHBOURS;
use second::image;
use second::member::{LARGEST_NAME, PLACES};
use second::suite::{Suite, MOST_MEMBERS};

use crate::comparison::Comparison;
use crate::images;
use crate::shapes::{operations, suite};
use second::random::Random;

/// Small suites, each with names to ask about: held by all, by some, by none.
fn small() -> Vec<(Suite, Vec<u32>)> {
    let listing = {
        let mut suite = Suite::create(2, 2, &[1, 1, 1]).expect("the listing's suite");
        let done = suite.insert(3, 3, 20, 7).is_ok()
            && suite.insert(6, 6, 10, 3).is_ok()
            && suite.insert(5, 5, 30, 9).is_ok()
            && suite.remove(5, 6, 20).is_ok()
            && suite.insert(3, 3, 20, 8).is_ok();
        assert!(done, "the listing's changes");
        suite
    };
    let mut ends = Suite::create(1, 15, &[15]).expect("one member");
    for name in [0, 1, LARGEST_NAME] {
        ends.insert(1, 1, name, 65_535).expect("room for three");
    }
    let mut voteless = Suite::create(1, 1, &[1, 0, 0]).expect("one member with votes");
    voteless.insert(1, 7, 5, 1).expect("room");
    vec![
        (Suite::create(1, 1, &[1]).expect("one member"), vec![5]),
        (listing, vec![10, 20, 15]),
        (ends, vec![0, 2, LARGEST_NAME]),
        (voteless, vec![5, 6]),
        (suite(2, 2), vec![31_775, 1]),
        (suite(MOST_MEMBERS, 0), vec![9]),
        (suite(MOST_MEMBERS, 1), vec![31_775]),
    ]
}

/// The longest image, with a name that it holds.
fn full() -> (Suite, u32) {
    (suite(MOST_MEMBERS, PLACES), 31_775)
}

/// Every cut, with every operation on the small images; bytes that follow, too.
pub fn cuts() -> Comparison {
    let mut comparison = Comparison::default();
    for (suite, names) in small() {
        let mut image = images::of(&suite);
        let length = image.len();
        image.extend([0, 0, 0x80, 0]);
        for cut in 0..=length + 4 {
            operations(&mut comparison, &image[..cut], suite.all(), &names, None);
        }
    }
    let (suite, name) = full();
    let image = images::of(&suite);
    for cut in 0..=image.len() {
        operations(&mut comparison, &image[..cut], suite.all(), &[name], None);
    }
    comparison
}

/// Every flipped bit, with every operation on the small images and one by turns on the longest.
pub fn flips() -> Comparison {
    let mut comparison = Comparison::default();
    for (suite, names) in small() {
        each_flip(&images::of(&suite), |_, image| {
            operations(&mut comparison, image, suite.all(), &names, None);
        });
    }
    let (suite, name) = full();
    each_flip(&images::of(&suite), |bit, image| {
        let op = bit as u32 % (NEIGHBOURS + 1);
        operations(&mut comparison, image, suite.all(), &[name], Some(op));
    });
    comparison
}

fn each_flip(image: &[u8], mut with: impl FnMut(usize, &[u8])) {
    let mut image = image.to_vec();
    for bit in 0..8 * image.len() {
        image[bit / 8] ^= 1 << (bit % 8);
        with(bit, &image);
        image[bit / 8] ^= 1 << (bit % 8);
    }
}

/// Random bytes of every length up to some 3,000. All but a few begin with edition 1, and
/// half of them with a suite's votes and quorums, since else the first fault stands at the front.
pub fn random_bytes(random: &mut Random, count: usize) -> Comparison {
    let mut comparison = Comparison::default();
    for _ in 0..count {
        let length = random.pick(&[1, 8, 40, 300, 3_000]);
        let mut image: Vec<u8> = (0..random.below(length + 1))
            .map(|_| random.bits() as u8)
            .collect();
        if let (Some(first), false) = (image.first_mut(), random.once_in(8)) {
            *first = 0x10 | *first & 0x0f;
        }
        if random.once_in(2) {
            // One member with 15 votes, R 15 and W 1: 0001 000 0001111 0000001 1111, then a
            // member's count and gap.
            let head = [0x10, 0x1e, 0x0f, 0x80 | random.bits() as u8 & 0x7f];
            image.splice(..image.len().min(4), head);
        }
        let name = random.between(0, LARGEST_NAME);
        let sets = random.pick(&[1, 3, 7, 255]);
        operations(&mut comparison, &image, sets, &[name], None);
    }
    comparison
}

/// The generator's images, most of them damaged, with every operation on a name that the
/// image holds, where it can be read, and on any other.
pub fn damaged(random: &mut Random, count: usize) -> Comparison {
    let mut comparison = Comparison::default();
    for _ in 0..count {
        let image = images::any(random);
        let (sets, held) = match image::read(&image) {
            Ok(suite) => (suite.all(), held(random, &suite)),
            Err(_) => (random.pick(&[1, 7, 255]), 5),
        };
        let names = [held, random.between(0, LARGEST_NAME)];
        operations(&mut comparison, &image, sets, &names, None);
    }
    comparison
}

/// A name that a member of the suite holds, or 0.
fn held(random: &mut Random, suite: &Suite) -> u32 {
    let member = &suite.members[random.below(suite.count)];
    match member.count {
        0 => 0,
        count => member.names[1 + random.below(count)] as u32,
    }
}
