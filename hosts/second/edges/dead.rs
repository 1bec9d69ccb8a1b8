//! 'Ways to bring back the dead'.

use crate::run::{title, Run};

pub fn run() {
    counting_members();
    one_members_neighbour();
    version_from_entries_alone();
    version_of_a_split_gap();
    stale_predecessor();
    stale_successor();
}

fn counting_members() {
    title("votes count, not members");
    let mut s = Run::create(2, 3, &[2, 1, 1]);
    s.ins(1, 7, 20, 7);
    s.del(1, 6, 20);
    s.look(1, 20);
    s.look(2, 20);
    s.del(1, 3, 20);
    s.look(1, 20);
    s.look(6, 20);
}

fn one_members_neighbour() {
    title("after the listing's removal member 0 still holds 20");
    let mut s = Run::listing();
    s.first_member(20);
    for set in [3, 5, 6, 7] {
        s.near(set, 15);
    }
    for name in [25, 20] {
        s.near(3, name);
        s.near(5, name);
    }
    s.del(3, 6, 10);
    s.look(6, 20);
    s.look(3, 20);
    s.look(5, 20);
    s.near(3, 20);
}

fn version_from_entries_alone() {
    title("the version of the gap counts, not only those of entries");
    let mut s = Run::listing();
    s.ins(3, 3, 20, 8);
    s.look(3, 20);
    s.look(5, 20);
    s.look(6, 20);
    title("the same with the gap in a lower-numbered member");
    let mut s = Run::three();
    s.ins(7, 7, 20, 7);
    s.del(7, 3, 20);
    s.ins(7, 6, 20, 8);
    s.look(3, 20);
    s.del(7, 6, 20);
    s.look(3, 20);
    s.look(5, 20);
}

fn version_of_a_split_gap() {
    title("both halves of a split gap keep its version");
    let mut s = Run::three();
    s.ins(6, 6, 10, 3);
    s.ins(3, 3, 20, 7);
    s.look(5, 10);
    s.look(3, 5);
    s.look(3, 15);
    s.look(3, 25);
}

/// All members hold 10, 15 and 20; then 15 is gone from members 0 and 2.
fn without_15() -> Run {
    let mut s = Run::three();
    s.ins(7, 7, 10, 1);
    s.ins(7, 7, 15, 5);
    s.ins(7, 7, 20, 1);
    s.del(7, 5, 15);
    s
}

fn stale_predecessor() {
    title("the predecessor's newest version is written");
    let mut s = without_15();
    s.upd(7, 6, 10, 2);
    s.first_member(10);
    s.del(3, 5, 20);
    s.first_member(10);
    s.look(5, 10);
    s.look(3, 10);
}

fn stale_successor() {
    title("the successor's newest version is written");
    let mut s = without_15();
    s.upd(7, 6, 20, 2);
    s.first_member(20);
    s.del(3, 5, 10);
    s.first_member(20);
    s.look(5, 20);
    s.look(3, 20);
}
