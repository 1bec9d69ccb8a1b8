//! Every example of the rules paper that is not a line of its listing, run by the second
//! program: a line for each call, with what came of it. The crate `edges` has the same
//! scripts and must print the same.

/// How the tests write a member down; the rest of that file is theirs alone.
#[allow(dead_code)]
#[path = "../tests/build.rs"]
mod build;
mod dead;
mod edges;
mod refusals;
mod run;
mod soundness;

fn main() {
    edges::run();
    dead::run();
    soundness::run();
    refusals::run();
}
