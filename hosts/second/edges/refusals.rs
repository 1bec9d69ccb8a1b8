//! Refusals 2 to 13 on both sides of their edges, and the order in which they are given.

use second::member::{Member, LARGEST_NAME, LARGEST_VALUE, LARGEST_VERSION};

use crate::build::member;
use crate::run::{title, Run};

pub fn run() {
    creation();
    names();
    values();
    sets();
    eight_members();
    new_versions();
    room();
    version_before_room();
}

fn creation() {
    title("creation: members");
    Run::create(1, 1, &[]);
    Run::create(8, 1, &[1; 8]);
    Run::create(9, 1, &[1; 9]);
    Run::create(0, 0, &[16; 9]);
    title("creation: votes");
    Run::create(1, 15, &[15]);
    Run::create(1, 16, &[16]);
    Run::create(0, 0, &[16]);
    title("creation: R and W");
    for (read, write) in [
        (0, 4),
        (1, 4),
        (4, 0),
        (4, 1),
        (5, 1),
        (1, 5),
        (2, 2),
        (2, 3),
    ] {
        Run::create(read, write, &[2, 2]);
    }
    Run::create(1, 1, &[0, 0]);
    Run::create(120, 120, &[15; 8]);
    Run::create(u32::MAX, u32::MAX, &[2, 2]);
}

fn names() {
    title("names 0 and 1048575");
    let mut s = Run::create(1, 1, &[1]);
    s.ins(1, 1, 0, LARGEST_VALUE);
    s.ins(1, 1, LARGEST_NAME, 0);
    s.near(1, 500);
    s.each(1, 1, 0, 1);
    s.each(1, 1, LARGEST_NAME, 1);
    title("names 1048576 and 4294967295");
    s.each(1, 1, LARGEST_NAME + 1, 1);
    s.each(1, 1, u32::MAX, 1);
    title("5 comes before 6 and 7");
    s.each(2, 2, LARGEST_NAME + 1, LARGEST_VALUE + 1);
}

/// 5 is present, and 6 is not.
fn with_five() -> Run {
    let mut s = Run::three();
    s.ins(3, 3, 5, 1);
    s
}

fn values() {
    title("values 65535 and 65536");
    let s = with_five();
    for name in [5, 6] {
        s.each(3, 3, name, LARGEST_VALUE);
        s.each(3, 3, name, LARGEST_VALUE + 1);
    }
    title("6 comes before 7");
    s.each(8, 8, 5, LARGEST_VALUE + 1);
}

fn sets() {
    title("a member that doesn't exist; 7 comes before 8");
    let s = with_five();
    s.each(7, 7, 5, 2);
    s.each(8, 3, 5, 2);
    s.each(3, 8, 5, 2);
    s.each(1, 8, 5, 2);
    s.each(1 << 31 | 3, 3, 5, 2);
    title("votes of the read set; 8 comes before 9");
    s.each(4, 3, 5, 2);
    s.each(4, 4, 5, 2);
    title("votes of the write set; 9 comes before 10 and 11");
    s.each(3, 4, 5, 2);
    s.each(3, 4, 6, 2);
    title("10 and 11");
    s.each(6, 6, 5, 2);
    s.each(6, 6, 6, 2);
}

fn eight_members() {
    title("eight members");
    let s = Run::create(1, 8, &[1; 8]);
    s.each(128, 255, 5, 1);
    s.each(128, 127, 5, 1);
    s.each(256, 255, 5, 1);
}

fn new_versions() {
    let each = |text: &str, member: fn(u32) -> Member| {
        title(text);
        Run::alone(member(LARGEST_VERSION - 1)).each(1, 1, 5, 2);
        Run::alone(member(LARGEST_VERSION)).each(1, 1, 5, 2);
    };
    each("gaps of version 16777214 and 16777215", |version| {
        member(version, &[])
    });
    each("entries of version 16777214 and 16777215", |version| {
        member(0, &[(5, version, 1, 0)])
    });
    each("the gap below, at 16777214 and 16777215", |version| {
        member(version, &[(5, 1, 1, 0)])
    });
    each("the gap above, at 16777214 and 16777215", |version| {
        member(0, &[(5, 1, 1, version)])
    });
}

fn room() {
    title("31 entries, then 32");
    let mut s = Run::create(1, 1, &[1]);
    s.fill(1, 1, 1, 31);
    s.each(1, 1, 50, 2);
    s.ins(1, 1, 50, 2);
    s.each(1, 1, 51, 2);
    s.each(1, 1, 50, 2);
    title("a freed place is used again");
    s.del(1, 1, 50);
    s.ins(1, 1, 51, 2);
    s.ins(1, 1, 50, 2);
}

fn version_before_room() {
    title("12 comes before 13: member 0 is full, member 1 has a gap of version 16777214, then 16777215");
    let mut s = Run::create(1, 2, &[1, 1]);
    s.fill(3, 3, 3, 32);
    for version in [LARGEST_VERSION - 1, LARGEST_VERSION] {
        let full = s.clone();
        full.with(|suite| suite.members[1] = member(version, &[]))
            .ins(2, 3, 50, 2);
    }
}
