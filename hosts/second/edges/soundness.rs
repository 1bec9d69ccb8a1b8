//! Refusal 1: clauses of soundness, each broken alone and, beside it, held at its edge.

use second::member::{Member, LARGEST_NAME, LARGEST_VERSION};

use crate::build::member;
use crate::run::{title, Run};

pub fn run() {
    quorum();
    places();
    members();
}

fn with_quorum(read: u32, write: u32) -> Run {
    Run::create(2, 1, &[1, 1]).with(|suite| (suite.read, suite.write) = (read, write))
}

fn quorum() {
    title("R 0, then 1");
    with_quorum(0, 2).each(3, 3, 5, 1);
    with_quorum(1, 2).each(3, 3, 5, 1);
    title("R and W: 3 2, 2 0, 2 3, 1 1, 2 2");
    for (read, write) in [(3, 2), (2, 0), (2, 3), (1, 1), (2, 2)] {
        with_quorum(read, write).look(3, 5);
    }
}

/// A suite of one member with another vote, count of members, and vote and member in the
/// place after it.
fn with_places(vote: u32, count: usize, next: u32, member: Member) -> Run {
    Run::create(15, 1, &[15]).with(|suite| {
        suite.count = count;
        (suite.votes[0], suite.votes[1]) = (vote, next);
        suite.members[1] = member;
    })
}

fn places() {
    let five = member(0, &[(5, 1, 1, 0)]);
    title("votes 15, then 16");
    with_places(15, 1, 0, Member::FRESH).look(1, 5);
    with_places(16, 1, 0, Member::FRESH).look(1, 5);
    title("members 0, 8, then 9");
    for count in [0, 8, 9] {
        with_places(15, count, 0, Member::FRESH).look(1, 5);
    }
    title(
        "an unused place with a vote, a gap's version, an entry; then a vote and an entry in use",
    );
    with_places(15, 1, 1, Member::FRESH).look(1, 5);
    with_places(15, 1, 0, member(1, &[])).look(1, 5);
    with_places(15, 1, 0, five.clone()).look(1, 5);
    with_places(14, 2, 1, five).look(3, 5);
}

fn members() {
    title("an entry of version 0, 1, 16777215, 16777216");
    for version in [0, 1, LARGEST_VERSION, LARGEST_VERSION + 1] {
        Run::alone(member(0, &[(5, version, 1, 0)])).look(1, 5);
    }
    title("a gap of version 16777215, 16777216");
    for version in [LARGEST_VERSION, LARGEST_VERSION + 1] {
        Run::alone(member(version, &[])).look(1, 5);
    }
    title("an entry of name 1048575, 1048576");
    for name in [LARGEST_NAME, LARGEST_NAME + 1] {
        Run::alone(member(0, &[(name as i32, 1, 1, 0)])).look(1, 5);
    }
}
