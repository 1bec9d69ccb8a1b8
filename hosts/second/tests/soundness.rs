//! Refusal 1: each clause of soundness, broken alone.

use second::member::{LARGEST_NAME, LARGEST_VERSION};
use second::refusal::Refusal;
use second::sound::judge;
use second::suite::Suite;

use crate::build::{member, suite};

fn sound() -> Suite {
    let rows = [
        (0, 1, 65_535, 0),
        (7, LARGEST_VERSION, 0, LARGEST_VERSION),
        (LARGEST_NAME as i32, 1, 0, 0),
    ];
    let mut suite = suite(
        2,
        2,
        &[
            member(0, &rows),
            member(LARGEST_VERSION, &[]),
            member(0, &[]),
        ],
    );
    suite.votes[2] = 0;
    suite
}

#[test]
fn each_clause() {
    assert_eq!(judge(&sound()), Ok(()));
    let faults: [fn(&mut Suite); 23] = [
        |suite| suite.count = 0,
        |suite| suite.count = 9,
        |suite| suite.votes[0] = 16,
        |suite| suite.read = 0,
        |suite| suite.read = 3,
        |suite| suite.write = 0,
        |suite| suite.write = 3,
        |suite| (suite.read, suite.write) = (1, 1),
        |suite| suite.votes[3] = 1,
        |suite| suite.members[7].gaps[0] = 1,
        |suite| suite.members[7].count = 1,
        |suite| suite.members[0].count = 33,
        |suite| suite.members[0].count = 2,
        |suite| suite.members[0].names[0] = 0,
        |suite| suite.members[0].names[2] = 0,
        |suite| suite.members[0].names[2] = LARGEST_NAME as i32,
        |suite| suite.members[0].names[3] = LARGEST_NAME as i32 + 1,
        |suite| suite.members[0].versions[1] = 0,
        |suite| suite.members[0].versions[2] = LARGEST_VERSION + 1,
        |suite| suite.members[0].gaps[2] = LARGEST_VERSION + 1,
        |suite| suite.members[0].versions[0] = 1,
        |suite| suite.members[0].values[5] = 1,
        |suite| suite.members[0].gaps[4] = 1,
    ];
    for (number, fault) in faults.iter().enumerate() {
        let mut suite = sound();
        fault(&mut suite);
        assert_eq!(judge(&suite), Err(Refusal::Unsound), "fault {number}");
    }
}
