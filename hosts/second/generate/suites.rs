//! Suites, and the sets, names and values to try on them.

use second::member::{Member, Reading, HIGH, LARGEST_NAME, LARGEST_VALUE, LARGEST_VERSION, PLACES};
use second::suite::{Suite, LARGEST_VOTE, MOST_MEMBERS};

use second::random::Random;

/// R, W and votes that creation accepts.
pub fn votes(random: &mut Random) -> (u32, u32, Vec<u32>) {
    let members = 1 + random.below(MOST_MEMBERS);
    let largest = random.pick(&[1, 1, 2, 3, LARGEST_VOTE]);
    let mut votes: Vec<u32> = (0..members).map(|_| random.between(0, largest)).collect();
    let sure = random.below(members);
    votes[sure] = votes[sure].max(1);
    let all: u32 = votes.iter().sum();
    let read = random.between(1, all);
    let least = (all + 1 - read).max(1);
    let write = if random.once_in(3) {
        random.between(least, all)
    } else {
        least
    };
    (read, write, votes)
}

/// A pool of names close together, mostly, so that members share some of them.
pub fn names(random: &mut Random) -> Vec<u32> {
    let size = random.pick(&[3, 8, 20, 33, 36, 40, 60]);
    let from = random.between(0, LARGEST_NAME - 200);
    let from = random.pick(&[from, from, 0, LARGEST_NAME - 199]);
    let far = random.once_in(3);
    let mut names: Vec<u32> = (0..size)
        .map(|_| {
            if far {
                random.between(0, LARGEST_NAME)
            } else {
                from + random.between(0, size)
            }
        })
        .collect();
    names.extend(random.pick(&[&[][..], &[0], &[LARGEST_NAME], &[0, LARGEST_NAME]]));
    names.sort_unstable();
    names.dedup();
    names
}

/// Any sound suite: any versions, often full members, often versions at the limit.
pub fn arbitrary(random: &mut Random, names: &[u32]) -> Suite {
    let (read, write, votes) = votes(random);
    let mut suite = Suite::create(read, write, &votes).expect("votes that creation accepts");
    let largest = random.pick(&[2, 4, 40, LARGEST_VERSION, LARGEST_VERSION]);
    let near_limit = largest == LARGEST_VERSION && random.once_in(2);
    let least = if near_limit { LARGEST_VERSION - 3 } else { 0 };
    for member in &mut suite.members[..votes.len()] {
        fill(random, member, names, least, largest);
    }
    suite
}

fn fill(random: &mut Random, member: &mut Member, names: &[u32], least: u32, largest: u32) {
    let wanted = random
        .pick(&[0, 1, 5, 20, PLACES - 1, PLACES, PLACES])
        .min(names.len());
    let mut chosen = names.to_vec();
    while chosen.len() > wanted {
        chosen.remove(random.below(chosen.len()));
    }
    member.count = chosen.len();
    member.gaps[0] = random.between(least, largest);
    for (slot, name) in (1..).zip(chosen) {
        member.names[slot] = name as i32;
        member.versions[slot] = random.between(least.max(1), largest);
        member.values[slot] = random.bits() as u16;
        member.gaps[slot] = random.between(least, largest);
    }
}

/// A suite that calls alone have made.
pub fn reached(random: &mut Random, names: &[u32]) -> Suite {
    let (read, write, votes) = votes(random);
    let mut suite = Suite::create(read, write, &votes).expect("votes that creation accepts");
    let inserts = random.pick(&[1, 3, 8]);
    for _ in 0..random.below(250) {
        let read_set = good_set(random, &suite, read);
        let write_set = good_set(random, &suite, write);
        let (name, value) = (random.pick(names), random.between(0, LARGEST_VALUE));
        // What is refused leaves the suite as it was, so a refusal does no harm here.
        let _ = match random.below(inserts + 2) {
            0 => suite.remove(read_set, write_set, name),
            1 => suite.update(read_set, write_set, name, value),
            _ => suite.insert(read_set, write_set, name, value),
        };
    }
    suite
}

/// A set of members with so many votes.
pub fn good_set(random: &mut Random, suite: &Suite, quorum: u32) -> u32 {
    let mut set = random.bits() as u32 & suite.all();
    let votes = |set: u32| -> u32 {
        (0..suite.count)
            .filter(|i| set >> i & 1 == 1)
            .map(|i| suite.votes[i])
            .sum()
    };
    while votes(set) < quorum {
        set |= 1 << random.below(suite.count);
    }
    set
}

/// A set of any kind, mostly with enough votes.
pub fn any_set(random: &mut Random, suite: &Suite, quorum: u32) -> u32 {
    match random.below(45) {
        0 => 0,
        1 => random.bits() as u32,
        2 => suite.all() + 1,
        3 => good_set(random, suite, quorum) | 1 << random.between(0, 31),
        4 | 5 => random.bits() as u32 & suite.all(),
        6 => 1 << random.below(suite.count),
        _ => good_set(random, suite, quorum),
    }
}

/// A name of any kind, mostly from the pool.
pub fn any_name(random: &mut Random, names: &[u32]) -> u32 {
    match random.below(45) {
        0 => LARGEST_NAME,
        1 => HIGH as u32,
        2 => random.bits() as u32,
        3 => random.between(0, LARGEST_NAME),
        4 => random.pick(names).saturating_sub(1),
        _ => random.pick(names),
    }
}

/// A value of any kind, mostly in range.
pub fn any_value(random: &mut Random) -> u32 {
    match random.below(40) {
        0 => LARGEST_VALUE,
        1 => LARGEST_VALUE + 1,
        2 => random.bits() as u32,
        _ => random.between(0, LARGEST_VALUE),
    }
}

/// A read set, a write set with a full member in it and a name that this member does
/// not hold, mostly one that is present, so that the call may find no room.
pub fn crowded(random: &mut Random, suite: &Suite, names: &[u32]) -> Option<(u32, u32, u32)> {
    let read_set = good_set(random, suite, suite.read);
    let wanted = !random.once_in(4);
    let is_present = |name: u32| {
        let found = suite.lookup(read_set, name).expect("a good set");
        matches!(found.reading, Reading::Entry { .. })
    };
    let mut choices = Vec::new();
    for (i, member) in suite
        .members
        .iter()
        .enumerate()
        .filter(|(_, member)| member.count == PLACES)
    {
        let missing = names
            .iter()
            .filter(|&&name| !member.names.contains(&(name as i32)));
        choices.extend(
            missing
                .filter(|&&name| is_present(name) == wanted)
                .map(|&name| (i, name)),
        );
    }
    if choices.is_empty() {
        return None;
    }
    let (i, name) = random.pick(&choices);
    let write_set = good_set(random, suite, suite.write) | 1 << i;
    Some((read_set, write_set, name))
}
