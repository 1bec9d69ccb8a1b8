//! How often each refusal and each kind of answer was seen with every operation of the
//! bench call.

use second::bench;
use second::calls::{Call, Outcome};
use second::image;
use second::member::HIGH;

use crate::tally::{ends, Counts, Wanted};

/// What buffers hold before a call, so that bytes written without need are seen.
pub const FILL: u8 = 0xa5;

/// Refusal 19 for the answer; 'no 19' alone is for image out.
const SHORT_ANSWER: &str = "no 19 for the answer";

pub const BENCH: [Wanted; 6] = [
    (
        "lookup",
        &["present", "absent", SHORT_ANSWER],
        &[5, 7, 8, 15, 16, 17, 18, 19],
    ),
    (
        "insert",
        &["ok", SHORT_ANSWER],
        &[5, 6, 7, 8, 9, 10, 12, 13, 15, 16, 17, 18, 19],
    ),
    (
        "update",
        &["ok", SHORT_ANSWER],
        &[5, 6, 7, 8, 9, 11, 12, 13, 15, 16, 17, 18, 19],
    ),
    (
        "remove",
        &["ok", SHORT_ANSWER],
        &[5, 7, 8, 9, 11, 12, 13, 15, 16, 17, 18, 19],
    ),
    (
        "neighbours",
        &[
            "LOW HIGH",
            "LOW name",
            "name HIGH",
            "name name",
            SHORT_ANSWER,
        ],
        &[5, 7, 8, 15, 16, 17, 18, 19],
    ),
    ("other", &[], &[14]),
];

/// Counts a call's outcome.
pub fn note(counts: &mut Counts, call: &Call, outcome: &Outcome) {
    let op = call.asked.op;
    let operation = BENCH[(op as usize).min(BENCH.len() - 1)].0;
    let kind = kind(call, outcome);
    *counts.entry((operation, kind)).or_default() += 1;
}

/// Looks at the lent buffers, every byte of which was `FILL` before the call.
pub fn check_buffers(outcome: &Outcome) {
    let Outcome {
        result,
        image_out,
        answer,
    } = outcome;
    let untouched = |bytes: &[u8]| bytes.iter().all(|&byte| byte == FILL);
    if *result != 0 {
        assert!(
            untouched(image_out) && untouched(answer),
            "a refusal leaves lent memory as it was"
        );
        return;
    }
    assert!(
        untouched(&answer[bench::ANSWER..]),
        "bytes after the answer stay"
    );
    let length = image::length_in_front(image_out).expect("image out starts with an image");
    assert!(
        image::read(&image_out[..length]).is_ok(),
        "image out starts with an image"
    );
    assert!(
        untouched(&image_out[length..]),
        "bytes after the image stay"
    );
}

fn kind(call: &Call, outcome: &Outcome) -> String {
    let number = |at: usize| {
        let bytes = &outcome.answer[4 * at..4 * at + 4];
        u32::from_be_bytes(bytes.try_into().expect("four bytes"))
    };
    match (outcome.result, call.asked.op) {
        (0, bench::LOOKUP) => if number(0) == 1 { "present" } else { "absent" }.into(),
        (0, bench::NEIGHBOURS) => ends(number(0) == 0, number(1) == HIGH as u32 + 1),
        (0, _) => "ok".into(),
        // 19 stands in two places of the order.
        (19, _) if call.answer < bench::ANSWER => SHORT_ANSWER.into(),
        (refusal, _) => format!("no {refusal}"),
    }
}
