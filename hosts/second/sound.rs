//! Soundness of a suite that comes from elsewhere. The suites made here are sound,
//! so the calls do not ask again.

use crate::member::{Member, HIGH, LARGEST_NAME, LARGEST_VERSION, LOW, PLACES, SLOTS};
use crate::refusal::Refusal;
use crate::suite::{quorums, Suite, LARGEST_VOTE, MOST_MEMBERS};

/// Refusal 1 for a suite whose fields were set by hand.
pub fn judge(suite: &Suite) -> Result<(), Refusal> {
    let sound = 1 <= suite.count
        && suite.count <= MOST_MEMBERS
        && suite.votes.iter().all(|&vote| vote <= LARGEST_VOTE)
        && suite.votes[suite.count..].iter().all(|&vote| vote == 0)
        && quorums(suite.read, suite.write, &suite.votes)
        && suite.members.iter().all(member_obeys)
        && suite.members[suite.count..]
            .iter()
            .all(|member| *member == Member::FRESH);
    if sound {
        Ok(())
    } else {
        Err(Refusal::Unsound)
    }
}

fn member_obeys(member: &Member) -> bool {
    if member.count > PLACES {
        return false;
    }
    let (first, high) = (1, member.count + 1);
    let names = &member.names;
    let ends = names[0] == LOW && member.versions[0] == 0 && member.values[0] == 0;
    let ascending = names[..=high].windows(2).all(|pair| pair[0] < pair[1]);
    let in_range = names[first..high]
        .iter()
        .all(|&name| (0..=LARGEST_NAME as i32).contains(&name));
    let versions = member.versions[first..high]
        .iter()
        .all(|version| (1..=LARGEST_VERSION).contains(version));
    let gaps = member.gaps[..high]
        .iter()
        .all(|&gap| gap <= LARGEST_VERSION);
    let unused = (high..SLOTS).all(|slot| {
        names[slot] == HIGH
            && member.versions[slot] == 0
            && member.values[slot] == 0
            && member.gaps[slot] == 0
    });
    ends && ascending && in_range && versions && gaps && unused
}
