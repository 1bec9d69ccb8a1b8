//! Images: whole, damaged, cut short and too long.

use second::image;
use second::suite::Suite;

use crate::suites;
use second::random::Random;

pub fn of(suite: &Suite) -> Vec<u8> {
    let mut bytes = vec![0; image::length(suite)];
    image::write(suite, &mut bytes).expect("room for the whole image");
    bytes
}

/// An image of any kind, mostly a sound one.
pub fn any(random: &mut Random) -> Vec<u8> {
    let names = suites::names(random);
    let suite = if random.once_in(2) {
        suites::arbitrary(random, &names)
    } else {
        suites::reached(random, &names)
    };
    if random.once_in(3) {
        of(&suite)
    } else {
        damaged(random, &suite)
    }
}

/// A suite's image with a fault in it, as a rule.
pub fn damaged(random: &mut Random, suite: &Suite) -> Vec<u8> {
    let mut suite = suite.clone();
    if random.once_in(2) {
        unsound(random, &mut suite);
    }
    let mut bytes = of(&suite);
    for _ in 0..random.pick(&[0, 1, 1, 2]) {
        damage(random, &mut bytes);
    }
    bytes
}

/// Sets one field that the image can hold and a sound suite cannot.
fn unsound(random: &mut Random, suite: &mut Suite) {
    let all: u32 = suite.votes.iter().sum();
    let held: Vec<usize> = (0..suite.count)
        .filter(|&i| suite.members[i].count > 0)
        .collect();
    match random.below(8) {
        0 => suite.read = 0,
        1 => suite.write = 0,
        2 => suite.read = random.between(all + 1, 127),
        3 => suite.write = random.between(all + 1, 127),
        4 => (suite.read, suite.write) = (1, all - 1),
        5 => suite.votes = [0; 8],
        _ if held.is_empty() => suite.read = 0,
        at => {
            let member = &mut suite.members[random.pick(&held)];
            let slot = 1 + random.below(member.count);
            if at == 6 {
                member.versions[slot] = 0;
            } else if slot > 1 {
                member.names[slot] = member.names[slot - 1]
                    - i32::from(random.once_in(2) && member.names[slot - 1] > 0);
            } else {
                member.versions[slot] = 0;
            }
        }
    }
}

/// One fault in the bytes.
fn damage(random: &mut Random, bytes: &mut Vec<u8>) {
    match random.below(7) {
        0 if !bytes.is_empty() => {
            let length = random.below(bytes.len());
            bytes.truncate(length);
        }
        1 if !bytes.is_empty() => {
            bytes.pop();
        }
        2 => bytes.push(random.pick(&[0, 0, 1, 0x80, 0xff])),
        3 => bytes.extend((0..random.below(3000)).map(|_| random.bits() as u8)),
        // The last byte's lowest bit is padding seven times in eight.
        4 => {
            if let Some(last) = bytes.last_mut() {
                *last |= 1;
            }
        }
        5 if !bytes.is_empty() => bytes[0] = random.bits() as u8,
        _ if !bytes.is_empty() => {
            let byte = random.below(bytes.len());
            bytes[byte] ^= 1 << random.below(8);
        }
        _ => bytes.clear(),
    }
}
