//! How often each refusal and each kind of answer was seen with every command of the
//! line program.

use second::answer::{Answer, Lines};
use second::line::Program;
use second::member::{Reading, HIGH, LOW};
use second::sound;

use crate::script;
use crate::tally::{ends, Counts, Wanted};
use second::random::Random;

// Refusal 12 cannot be seen on the line: a command raises the highest version by at
// most 1, and the bytes that are read hold fewer than 1,400,000 that do.
pub const LINE: [Wanted; 7] = [
    ("suite", &["suite ok"], &[2, 3, 4, 14]),
    ("look", &["present", "absent"], &[5, 7, 8, 14]),
    ("ins", &["ok"], &[5, 6, 7, 8, 9, 10, 13, 14]),
    ("upd", &["ok"], &[5, 6, 7, 8, 9, 11, 13, 14]),
    ("del", &["ok"], &[5, 7, 8, 9, 11, 13, 14]),
    (
        "near",
        &["LOW HIGH", "LOW name", "name HIGH", "name name"],
        &[5, 7, 8, 14],
    ),
    ("other", &[], &[14]),
];

/// Runs so many lines, as scripts and line by line.
pub fn count(random: &mut Random, count: usize) -> Counts {
    let mut counts = Counts::new();
    let mut left = count;
    while left > 0 {
        let length = left.min(1 + random.below(400));
        left -= length;
        let lines = script::lines(random, length);
        let mut program = Program::default();
        let mut expected = Lines::new();
        for line in &lines {
            let answer = program.step(&mut &line[..]);
            *counts.entry((command(line), kind(answer))).or_default() += 1;
            if let Some(suite) = program.suite() {
                sound::judge(suite).expect("calls keep a suite sound");
            }
            expected.add(answer);
        }
        let mut output = Vec::new();
        second::line::run(&script::text(random, &lines)[..], &mut output)
            .expect("memory does not fail");
        assert_eq!(
            output,
            expected.bytes(),
            "a script as a whole and line by line"
        );
    }
    counts
}

fn command(line: &[u8]) -> &'static str {
    let word = line.split(|&byte| byte == b' ').next().unwrap_or(line);
    let known = LINE
        .iter()
        .map(|wanted| wanted.0)
        .find(|known| known.as_bytes() == word);
    known.unwrap_or("other")
}

fn kind(answer: Answer) -> String {
    match answer {
        Answer::Suite => "suite ok".into(),
        Answer::Put(_) | Answer::Removed(_) => "ok".into(),
        Answer::Found(Reading::Entry { .. }) => "present".into(),
        Answer::Found(Reading::Gap { .. }) => "absent".into(),
        Answer::Near(near) => ends(near.below.name == LOW, near.above.name == HIGH),
        Answer::No(refusal) => format!("no {}", refusal.number()),
    }
}
