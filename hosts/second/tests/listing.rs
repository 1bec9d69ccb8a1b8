//! The paper's listing, on the line and through the bench call.

use second::bench::{self, Asked, INSERT, LOOKUP, NEIGHBOURS, REMOVE};
use second::calls::Call;
use second::image;
use second::suite::Suite;

use crate::images;

const LISTING: &str = "\
suite 2 2 1 1 1   -> suite ok
ins 3 3 20 7      -> ok 1
look 6 20         -> at 1 7
ins 6 6 10 3      -> ok 1
ins 5 5 30 9      -> ok 1
del 5 6 20        -> ok 2 6
look 3 20         -> none 2
near 3 15         -> 10 30 4
look 3 10         -> at 1 3
ins 3 3 20 8      -> ok 3
look 5 20         -> at 3 8
del 5 1 20        -> no 9
ins 3 3 20 8      -> no 10
";

#[test]
fn on_the_line() {
    let sides = || LISTING.lines().map(|line| line.split_once("->").unwrap());
    let input: String = sides()
        .map(|(left, _)| format!("{}\n", left.trim_end()))
        .collect();
    let expected: String = sides()
        .map(|(_, right)| format!("{}\n", right.trim_start()))
        .collect();
    let mut output = Vec::new();
    second::line::run(input.as_bytes(), &mut output).unwrap();
    assert_eq!(String::from_utf8(output).unwrap(), expected);
    let mut output = Vec::new();
    second::line::run(input.trim_end().as_bytes(), &mut output).unwrap();
    assert_eq!(
        String::from_utf8(output).unwrap(),
        expected,
        "the last newline may be missing"
    );
}

/// What the C example prints: a line for each call, and after it one with the suite's image.
const EXAMPLE: &str = include_str!("../../c/example.stdout");

fn image_line(image: &[u8]) -> String {
    let hex = image.iter().map(|byte| format!("{byte:02x}"));
    format!("image {}", hex.collect::<String>())
}

/// The listing's calls; what they give; the numbers of their answers.
const CALLS: [(Asked, u32, [u32; 4]); 12] = [
    (Asked::new(INSERT, 3, 3, 20, 7), 0, [1, 4, 0, 0]),
    (Asked::new(LOOKUP, 6, 99, 20, 99_999), 0, [1, 1, 7, 2]),
    (Asked::new(INSERT, 6, 6, 10, 3), 0, [1, 4, 0, 0]),
    (Asked::new(INSERT, 5, 5, 30, 9), 0, [1, 4, 0, 0]),
    (Asked::new(REMOVE, 5, 6, 20, 99_999), 0, [2, 6, 0, 0]),
    (Asked::new(LOOKUP, 3, 0, 20, 0), 0, [0, 2, 0, 2]),
    (Asked::new(NEIGHBOURS, 3, 99, 15, 99_999), 0, [11, 31, 4, 0]),
    (Asked::new(LOOKUP, 3, 0, 10, 0), 0, [1, 1, 3, 2]),
    (Asked::new(INSERT, 3, 3, 20, 8), 0, [3, 4, 0, 0]),
    (Asked::new(LOOKUP, 5, 0, 20, 0), 0, [1, 3, 8, 2]),
    (Asked::new(REMOVE, 5, 1, 20, 0), 9, [0; 4]),
    (Asked::new(INSERT, 3, 3, 20, 8), 10, [0; 4]),
];

#[test]
fn through_the_bench() {
    let mut image = images::of(&Suite::create(2, 2, &[1, 1, 1]).unwrap());
    let mut printed = EXAMPLE.lines().filter(|line| line.starts_with("image "));
    assert_eq!(printed.next(), Some(&image_line(&image)[..]));
    for (asked, expected, numbers) in CALLS {
        let call = Call {
            asked,
            image_in: image.clone(),
            image_out: image::LONGEST,
            answer: bench::ANSWER,
        };
        let outcome = call.outcome(bench::step, 0);
        assert_eq!(outcome.result, expected);
        assert_eq!(outcome.answer, numbers.map(u32::to_be_bytes).concat());
        if outcome.result == 0 {
            let out = &outcome.image_out;
            image = out[..image::length_in_front(out).unwrap()].to_vec();
        }
        assert_eq!(printed.next(), Some(&image_line(&image)[..]));
    }
    assert_eq!(printed.next(), None);
}
