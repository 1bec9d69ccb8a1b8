//! The forms of a line, and the bytes of the input.

use second::line::{run, LONGEST_LINE, MOST_INPUT};

fn output(input: &[u8]) -> String {
    let mut output = Vec::new();
    run(input, &mut output).unwrap();
    String::from_utf8(output).unwrap()
}

/// The last line's answer after a suite of three members that holds 5.
fn after_suite(line: &[u8]) -> String {
    let input = [b"suite 2 2 1 1 1\nins 3 3 5 9\n", line].concat();
    output(&input).lines().nth(2).unwrap().into()
}

#[test]
fn forms_that_are_understood() {
    for (line, expected) in [
        ("look 3 5", "at 1 9"),
        ("look - 5", "at 1 9"),
        ("look - 0", "none 0"),
        ("look 4294967295 5", "no 7"),
        ("look 3 4294967295", "no 5"),
        ("near - 5", "LOW HIGH 6"),
        ("near 3 4", "LOW 5 4"),
        ("near 3 6", "5 HIGH 4"),
        ("upd - - 5 65535", "ok 2"),
        ("upd 3 6 5 65536", "no 6"),
        ("del - 3 5", "ok 2 8"),
        ("del 0 3 5", "no 8"),
        ("ins 3 - 5 1", "no 10"),
        ("ins 3 0 6 1", "no 9"),
    ] {
        assert_eq!(after_suite(line.as_bytes()), expected, "{line}");
    }
}

/// Lines of no form, after a suite was accepted.
const NOT: [&str; 48] = [
    "",
    " ",
    "look",
    "look ",
    "look 3",
    "look 3 ",
    "look 3 5 ",
    "look 3 5 1",
    " look 3 5",
    "look  3 5",
    "look 3  5",
    "look\t3 5",
    "look 3 5\r",
    "look 3 5\0",
    "Look 3 5",
    "loo 3 5",
    "lookk 3 5",
    "look3 5",
    "look 03 5",
    "look 3 05",
    "look 3 00",
    "look 4294967296 5",
    "look 3 4294967296",
    "look 3 18446744073709551621",
    "look 3 00000000005",
    "look +3 5",
    "look 3 -5",
    "look 3 -",
    "look -- 5",
    "look -3 5",
    "look 3- 5",
    "look -5",
    "near 3",
    "near 3 3 5",
    "del 3 5",
    "del 3 3 5 1",
    "del 3 3 -",
    "ins 3 3 6",
    "ins 3 3 6 1 1",
    "ins 3 3 - 1",
    "ins 3 3 6 -",
    "upd 3 3 5",
    "suite 2 2 1 1 1",
    "suite",
    "suite 1 1",
    "new 3 5",
    "look 3 5x",
    "look 0x3 5",
];

#[test]
fn forms_that_are_not() {
    for line in NOT {
        let text = format!("{line}\n");
        assert_eq!(after_suite(text.as_bytes()), "no 14", "{line:?}");
    }
    for byte in (0..=255u8).filter(|byte| !byte.is_ascii_digit() && *byte != b'\n') {
        assert_eq!(
            after_suite(&[b'l', b'o', b'o', b'k', b' ', b'3', b' ', b'5', byte, b'\n']),
            "no 14"
        );
        assert_eq!(after_suite(&[byte, b'\n']), "no 14");
    }
}

#[test]
fn the_suite_comes_first_and_once() {
    for (line, expected) in [
        ("suite 1 1", "no 2"),
        ("suite 1 1 ", "no 14"),
        ("suite 1", "no 14"),
        ("suite", "no 14"),
        ("suite - 1 1", "no 14"),
        ("suite 1 1 -", "no 14"),
        ("suite 1 1 01", "no 14"),
        ("suite 1 1 1  1", "no 14"),
        ("suite 4294967295 4294967295 1", "no 4"),
        ("suite 4294967296 1 1", "no 14"),
        ("suite 1 1 4294967295", "no 3"),
        ("suite 9 9 1 1 1 1 1 1 1 1 1", "no 2"),
        ("suite 9 9 99 1 1 1 1 1 1 1 1", "no 2"),
        ("suite 9 9 99 1 1 1 1 1 1 1", "no 3"),
        ("suite 8 8 1 1 1 1 1 1 1 1", "suite ok"),
        ("look - 5", "no 14"),
        ("near - 5", "no 14"),
        ("ins - - 5 1", "no 14"),
    ] {
        assert_eq!(output(line.as_bytes()), format!("{expected}\n"), "{line}");
    }
    assert_eq!(
        output(b"look 1 5\nsuite 1 2 1\nsuite 1 1 1\nsuite 1 1 1\nlook 1 5"),
        "no 14\nno 4\nsuite ok\nno 14\nnone 0\n"
    );
}

#[test]
fn lines_of_eighty_bytes() {
    let mut line = b"suite 1 1".to_vec();
    while line.len() < LONGEST_LINE - 1 {
        line.extend(b" 1");
    }
    line.push(b'0');
    assert_eq!(line.len(), LONGEST_LINE);
    assert_eq!(output(&line), "no 2\n");
    line.push(b'\n');
    assert_eq!(output(&line), "no 2\n", "the newline is not counted");
    line[LONGEST_LINE] = b'0';
    assert_eq!(output(&line), "no 14\n");
}

#[test]
fn newlines() {
    assert_eq!(output(b""), "");
    assert_eq!(output(b"\n"), "no 14\n");
    assert_eq!(output(b"\n\n"), "no 14\nno 14\n");
    assert_eq!(output(b"suite 1 1 1"), "suite ok\n");
    assert_eq!(output(b"suite 1 1 1\n"), "suite ok\n");
    assert_eq!(output(b"suite 1 1 1\n\n"), "suite ok\nno 14\n");
    assert_eq!(output(b"suite 1 1 1\r\nsuite 1 1 1\r"), "no 14\nno 14\n");
}

#[test]
fn lines_across_the_buffer_s_edge() {
    // Lines of every length in turn meet the edge of each buffer in every way.
    let mut input = b"suite 1 1 1\n".to_vec();
    let mut expected = String::from("suite ok\n");
    for turn in 0..4000 {
        input.resize(input.len() + turn % 200, b'x');
        input.extend(b"\nlook 1 5\n");
        expected.push_str("no 14\nnone 0\n");
    }
    assert_eq!(output(&input), expected);
}

#[test]
fn a_line_longer_than_any_buffer() {
    let mut input = b"suite 1 1 1\n".to_vec();
    input.resize(1_000_000, b'x');
    input.extend(b"\nlook 1 5\n");
    input.resize(2_000_000, b'x');
    assert_eq!(output(&input), "suite ok\nno 14\nnone 0\nno 14\n");
}

/// An input in which the last byte that is read is the first digit of the name 55.
fn cut_input() -> Vec<u8> {
    let mut input = b"suite 1 1 1\nins 1 1 5 7\n".to_vec();
    let tail = b"\nlook 1 5";
    input.resize(MOST_INPUT as usize - tail.len(), b'x');
    input.extend(tail);
    assert_eq!(input.len() as u64, MOST_INPUT);
    input
}

#[test]
fn what_follows_the_limit_counts_as_absent() {
    let mut input = cut_input();
    assert_eq!(output(&input), "suite ok\nok 1\nno 14\nat 1 7\n");
    input.extend(b"5\nlook 1 5\n");
    assert_eq!(output(&input), "suite ok\nok 1\nno 14\nat 1 7\n");
    input.truncate(MOST_INPUT as usize - 1);
    assert_eq!(output(&input), "suite ok\nok 1\nno 14\nno 14\n");
    input.extend(b"\nlook 1 5\n");
    assert_eq!(output(&input), "suite ok\nok 1\nno 14\nno 14\n");
}

#[test]
fn more_output_than_input() {
    assert_eq!(output(&[b'\n'; 200_000]), "no 14\n".repeat(200_000));
}
