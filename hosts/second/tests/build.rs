//! Suites written down in short.

use second::member::Member;
use second::suite::Suite;

/// Name, version, value, version of the gap above.
pub type Row = (i32, u32, u16, u32);

pub fn member(lowest_gap: u32, rows: &[Row]) -> Member {
    let mut member = Member {
        count: rows.len(),
        ..Member::FRESH
    };
    member.gaps[0] = lowest_gap;
    for (slot, &(name, version, value, gap)) in (1..).zip(rows) {
        member.names[slot] = name;
        member.versions[slot] = version;
        member.values[slot] = value;
        member.gaps[slot] = gap;
    }
    member
}

/// A suite of members with one vote each.
pub fn suite(read: u32, write: u32, members: &[Member]) -> Suite {
    let mut suite = Suite::create(read, write, &vec![1; members.len()]).unwrap();
    suite.members[..members.len()].clone_from_slice(members);
    second::sound::judge(&suite).unwrap();
    suite
}

/// So many rows with names 10, 20, 30 and on, version 1, value 7 and gaps of version 0.
pub fn rows(count: i32) -> Vec<Row> {
    (1..=count).map(|i| (10 * i, 1, 7, 0)).collect()
}
