//! Refusals 15 to 19: each field of the image and each lent buffer.

use second::bench::{self, Asked};
use second::calls::Call;
use second::image;
use second::refusal::Refusal;
use second::suite::Suite;

use crate::build::{member, rows, suite};
use crate::images;

/// Fields of any width as an image's bytes.
fn packed(fields: &[(usize, u64)]) -> Vec<u8> {
    let mut bits: String = fields
        .iter()
        .map(|(width, field)| format!("{field:0width$b}"))
        .collect();
    while bits.len() % 8 != 0 {
        bits.push('0');
    }
    (0..bits.len() / 8)
        .map(|byte| u8::from_str_radix(&bits[8 * byte..8 * byte + 8], 2).unwrap())
        .collect()
}

fn number(image: &[u8]) -> u32 {
    image::read(image).err().map_or(0, Refusal::number)
}

/// Edition, members less one, R, W, both votes; a member of two entries, one of none.
const GOOD: [(usize, u64); 18] = [
    (4, 1),
    (3, 1),
    (7, 2),
    (7, 1),
    (4, 1),
    (4, 1),
    (6, 2),
    (24, 0xab_cdef),
    (20, 0x1_2345),
    (24, 0x67_89ab),
    (16, 0xcdef),
    (24, 0x01_2345),
    (20, 0x1_2346),
    (24, 1),
    (16, 0),
    (24, 0),
    (6, 0),
    (24, 0xff_ffff),
];

fn with(field: usize, value: u64) -> Vec<u8> {
    let mut fields = GOOD;
    fields[field].1 = value;
    packed(&fields)
}

#[test]
fn the_fields_in_their_places() {
    let rows = [
        (0x1_2345, 0x67_89ab, 0xcdef, 0x01_2345),
        (0x1_2346, 1, 0, 0),
    ];
    let suite = suite(2, 1, &[member(0xab_cdef, &rows), member(0xff_ffff, &[])]);
    assert_eq!(images::of(&suite), packed(&GOOD));
    assert_eq!(image::read(&packed(&GOOD)), Ok(suite));
}

#[test]
fn every_length() {
    let good = packed(&GOOD);
    assert_eq!(number(&[]), 15);
    for length in 0..good.len() {
        assert_eq!(number(&good[..length]), 15, "{length}");
    }
    assert_eq!(number(&good), 0);
    for more in [0, 1, 0x80] {
        let mut long = good.clone();
        long.push(more);
        assert_eq!(number(&long), 18);
        long.extend([0; 3000]);
        assert_eq!(number(&long), 18);
    }
}

#[test]
fn every_length_with_any_number_of_members() {
    // Low versions and gaps, so that what is cut off looks like the zeros behind it.
    for members in 1..=8 {
        let members: Vec<_> = (0..members).map(|i| member(1, &rows(i % 3 + 1))).collect();
        let image = images::of(&suite(1, members.len() as u32, &members));
        for length in 0..image.len() {
            assert_eq!(number(&image[..length]), 15, "{length}");
        }
        assert_eq!(number(&image), 0);
    }
}

#[test]
fn the_edition_is_judged_at_once() {
    for edition in (0..16).filter(|&edition| edition != 1) {
        assert_eq!(number(&with(0, edition)), 16);
        assert_eq!(number(&[(edition as u8) << 4]), 16);
    }
    assert_eq!(number(&[0x10]), 15);
}

#[test]
fn quorums_are_judged_after_the_last_vote() {
    for (field, value) in [
        (2, 0),
        (2, 3),
        (3, 0),
        (3, 3),
        (2, 1),
        (4, 0),
        (4, 2),
        (5, 15),
    ] {
        let image = with(field, value);
        assert_eq!(number(&image), 17, "field {field} as {value}");
        // 29 bits reach to the last vote's end.
        assert_eq!(number(&image[..4]), 17);
        assert_eq!(number(&image[..3]), 15);
    }
    assert_eq!(number(&with(3, 2)), 0);
}

#[test]
fn counts_names_and_versions() {
    assert_eq!(
        number(&with(6, 32)),
        17,
        "the empty member's fields read as names do not ascend"
    );
    assert_eq!(number(&with(6, 33)), 17);
    assert_eq!(number(&with(6, 33)[..5]), 17, "at the count itself");
    assert_eq!(number(&with(6, 32)[..5]), 15);
    assert_eq!(number(&with(12, 0x1_2345)), 17);
    assert_eq!(number(&with(12, 0x1_2344)), 17);
    assert_eq!(number(&with(9, 0)), 17);
    assert_eq!(number(&with(13, 0)), 17);
    assert_eq!(number(&with(13, 0xff_ffff)), 0);
    assert_eq!(number(&with(8, 0)), 0);
    assert_eq!(number(&with(12, 0xf_ffff)), 0);
    // The second name ends with bit 163 and its version with bit 187.
    assert_eq!(number(&with(12, 0x1_2345)[..20]), 15);
    assert_eq!(number(&with(12, 0x1_2345)[..21]), 17);
    assert_eq!(number(&with(13, 0)[..23]), 15);
    assert_eq!(number(&with(13, 0)[..24]), 17);
}

#[test]
fn every_padding_bit() {
    let good = packed(&GOOD);
    let used: usize = GOOD.iter().map(|field| field.0).sum();
    let padding = 8 * good.len() - used;
    assert!(padding > 0);
    for bit in 0..padding {
        let mut image = good.clone();
        *image.last_mut().unwrap() |= 1 << bit;
        assert_eq!(number(&image), 18);
    }
    let mut image = good.clone();
    *image.last_mut().unwrap() ^= 1 << padding;
    assert_eq!(number(&image), 0, "the last field's own bit");
}

#[test]
fn the_writer_s_buffer() {
    let suite = Suite::create(2, 2, &[1, 1, 1]).unwrap();
    let length = image::length(&suite);
    let mut short = vec![7; length - 1];
    assert_eq!(image::write(&suite, &mut short), Err(Refusal::BufferShort));
    assert!(short.iter().all(|&byte| byte == 7));
    let mut long = vec![7; length + 2];
    assert_eq!(image::write(&suite, &mut long), Ok(length));
    assert_eq!(long[length..], [7, 7]);
    assert_eq!(image::read(&long[..length]), Ok(suite));
}

#[test]
fn the_bench_s_buffers_and_their_order() {
    let good = images::of(&Suite::create(1, 1, &[1]).unwrap());
    let fresh: usize = 21 + 4 + 30;
    assert_eq!(good.len(), fresh.div_ceil(8));
    let after = (fresh + 84).div_ceil(8);
    let step = |op, read_set, image: &[u8], image_out: usize, answer: usize| {
        let call = Call {
            asked: Asked::new(op, read_set, 1, 5, 6),
            image_in: image.to_vec(),
            image_out,
            answer,
        };
        let outcome = call.outcome(bench::step, 7);
        let mut lent = outcome.image_out.iter().chain(&outcome.answer);
        assert!(outcome.result == 0 || lent.all(|&byte| byte == 7));
        outcome.result
    };
    assert_eq!(step(4, 1, &good, good.len(), 16), 0);
    assert_eq!(step(5, 1, &[], 0, 0), 14);
    assert_eq!(step(u32::MAX, 1, &good, good.len(), 16), 14);
    assert_eq!(step(0, 1, &[], 0, 15), 19);
    assert_eq!(step(0, 1, &[], 0, 16), 15);
    assert_eq!(step(0, 1, &good, good.len(), 15), 19);
    assert_eq!(step(0, 1, &good, good.len(), 17), 0);
    assert_eq!(step(0, 1, &good, good.len() - 1, 16), 19);
    assert_eq!(step(0, 2, &good, 0, 16), 7);
    assert_eq!(step(1, 1, &good, after - 1, 16), 19);
    assert_eq!(step(1, 1, &good, after, 16), 0);
}
