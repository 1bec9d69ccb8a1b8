//! 'Both sides of each edge'.

use second::member::LARGEST_VERSION;

use crate::build::member;
use crate::run::{title, Run};

pub fn run() {
    votes_and_quorums();
    set_zero();
    largest_version();
    leftover_in_a_full_member();
    removal_from_a_full_member();
}

fn votes_and_quorums() {
    title("votes, R and W");
    Run::create(2, 3, &[2, 1, 1]);
    Run::create(1, 3, &[2, 1, 1]);
    let mut s = Run::create(1, 1, &[1, 0, 0]);
    title("members with no votes are read and written too");
    s.ins(1, 1, 5, 1);
    s.upd(7, 7, 5, 2);
    s.look(1, 5);
    s.look(7, 5);
    s.look(6, 5);
}

fn set_zero() {
    title("set 0");
    let s = Run::create(1, 1, &[1]);
    s.each(0, 0, 5, 1);
    s.each(0, 1, 5, 1);
    s.each(1, 0, 5, 1);
}

fn largest_version() {
    title("an entry of version 16777214");
    let mut s = Run::alone(member(0, &[(5, LARGEST_VERSION - 1, 1, 0)]));
    s.upd(1, 1, 5, 2);
    title("an entry of version 16777215");
    s.upd(1, 1, 5, 3);
    s.look(1, 5);
}

fn leftover_in_a_full_member() {
    title("member 0 is full and holds the leftover of 16");
    let mut s = Run::create(2, 1, &[1, 1]);
    s.fill(3, 3, 3, 32);
    s.del(3, 2, 16);
    s.look(3, 16);
    s.ins(3, 1, 50, 1);
    s.ins(3, 1, 16, 2);
    s.look(3, 16);
    title("the place that member 1 freed is used again");
    s.ins(3, 2, 50, 1);
    s.ins(3, 2, 51, 1);
    s.look(3, 50);
    s.look(3, 51);
}

/// Member 0 holds the others, and of 160, 150 and 170 those whose set names it.
fn around_160(own: u32, below: u32, above: u32, others: u32) -> Run {
    let mut s = Run::three();
    s.ins(7, own, 160, 1);
    s.ins(7, below, 150, 2);
    s.ins(7, above, 170, 3);
    s.fill(7, 3, 5, others);
    s
}

/// The removal of 160 in members 0 and 1, and how much room it leaves in member 0.
fn remove_160(mut s: Run) {
    s.del(7, 3, 160);
    s.look(7, 160);
    s.ins(7, 3, 200, 1);
    s.ins(7, 3, 201, 1);
}

fn removal_from_a_full_member() {
    title("both neighbours must be added");
    let mut s = around_160(7, 6, 6, 31);
    remove_160(s.clone());
    title("the other members have room");
    s.del(7, 6, 160);
    title("the successor must be added");
    remove_160(around_160(7, 7, 6, 30));
    title("the predecessor must be added");
    remove_160(around_160(7, 6, 7, 30));
    title("neither must be added");
    remove_160(around_160(7, 7, 7, 29));
    title("both neighbours must be added and none dropped, with 31 entries, then 30");
    remove_160(around_160(6, 6, 6, 31));
    remove_160(around_160(6, 6, 6, 30));
}
