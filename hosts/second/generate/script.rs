//! Scripts for the line program.

use second::line::{Program, LONGEST_LINE};
use second::suite::Suite;

use crate::suites::{any_name, any_set, any_value, crowded, names, votes};
use second::random::Random;

/// A script of so many lines, given without their newlines.
pub fn lines(random: &mut Random, count: usize) -> Vec<Vec<u8>> {
    let names = names(random);
    // A script leans towards inserts or removals, so that some fill their members.
    let inserts = random.pick(&[1, 2, 6, 20]);
    let mut program = Program::default();
    (0..count)
        .map(|_| {
            let line = match program.suite() {
                None => before_suite(random),
                Some(suite) => command(random, suite, &names, inserts),
            };
            let line = if random.once_in(12) {
                spoiled(random, line)
            } else {
                line
            };
            program.step(&mut &line[..]);
            line
        })
        .collect()
}

/// The lines with their newlines; the last one is missing at times.
pub fn text(random: &mut Random, lines: &[Vec<u8>]) -> Vec<u8> {
    let mut text = lines.join(&b'\n');
    if lines.last().is_some_and(|last| last.is_empty()) || !random.once_in(4) {
        text.push(b'\n');
    }
    text
}

fn before_suite(random: &mut Random) -> Vec<u8> {
    let (mut read, mut write, mut votes) = votes(random);
    let all: u32 = votes.iter().sum();
    match random.below(12) {
        0 => return b"look - 5".to_vec(),
        1 => votes.clear(),
        2 => votes.extend([1; 8]),
        3 => votes.resize(9, 1),
        4 => votes[0] = random.pick(&[16, 17, u32::MAX]),
        5 => read = random.pick(&[0, all + 1, u32::MAX]),
        6 => write = random.pick(&[0, all + 1, u32::MAX]),
        7 => (read, write) = (all / 2, all - all / 2),
        _ => {}
    }
    let numbers: String = votes.iter().map(|vote| format!(" {vote}")).collect();
    format!("suite {read} {write}{numbers}").into_bytes()
}

fn command(random: &mut Random, suite: &Suite, names: &[u32], inserts: usize) -> Vec<u8> {
    if random.once_in(4) {
        if let Some((read_set, write_set, name)) = crowded(random, suite, names) {
            let line = match random.below(3) {
                0 => format!("ins {read_set} {write_set} {name} 1"),
                1 => format!("upd {read_set} {write_set} {name} 1"),
                _ => format!("del {read_set} {write_set} {name}"),
            };
            return line.into_bytes();
        }
    }
    let read_set = set_text(random, suite, suite.read);
    let write_set = set_text(random, suite, suite.write);
    let name = any_name(random, names);
    let value = any_value(random);
    match random.below(7 + inserts) {
        0 => format!("upd {read_set} {write_set} {name} {value}"),
        1 | 2 => format!("del {read_set} {write_set} {name}"),
        3 | 4 => format!("look {read_set} {name}"),
        5 => format!("near {read_set} {name}"),
        6 if random.once_in(10) => "suite 1 1 1".into(),
        _ => format!("ins {read_set} {write_set} {name} {value}"),
    }
    .into_bytes()
}

fn set_text(random: &mut Random, suite: &Suite, quorum: u32) -> String {
    if random.once_in(8) {
        "-".into()
    } else {
        any_set(random, suite, quorum).to_string()
    }
}

/// A line with a fault in its form, as a rule.
fn spoiled(random: &mut Random, mut line: Vec<u8>) -> Vec<u8> {
    let at = random.below(line.len());
    match random.below(12) {
        0 => line.clear(),
        1 => line.truncate(at),
        2 => line.insert(at, b' '),
        3 => line.push(b' '),
        4 => line.insert(0, b' '),
        5 => line.push(b'\r'),
        6 => line[at] = byte(random),
        7 => line.insert(at, byte(random)),
        8 => line.extend_from_slice(random.pick(&[
            &b" 1"[..],
            b" -",
            b" 4294967296",
            b" 00",
            b"0000000000",
        ])),
        9 => {
            // A zero before the last number.
            let space = line
                .iter()
                .rposition(|&byte| byte == b' ')
                .map_or(0, |space| space + 1);
            line.insert(space, b'0');
        }
        10 => line = overlong(random),
        _ => line[at].make_ascii_uppercase(),
    }
    line
}

/// Any byte but the newline.
fn byte(random: &mut Random) -> u8 {
    let any = random.bits() as u8;
    match random.pick(&[0, 0xff, b'-', b'+', b'\t', b'\r', b'0', b'9', any]) {
        b'\n' => 0,
        byte => byte,
    }
}

/// A `suite` line of some 80 bytes, which only its length sets apart from refusal 2.
fn overlong(random: &mut Random) -> Vec<u8> {
    let mut line = b"suite 1 1".to_vec();
    let length = LONGEST_LINE + random.below(3) - 1;
    while line.len() + 2 <= length {
        line.extend_from_slice(b" 1");
    }
    line.resize(length, b'0');
    line
}
