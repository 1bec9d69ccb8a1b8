//! Everything that the generator makes, against the plain maps.

use second::bench::{self, Asked as Numbers};

use crate::bench_calls::Source;
use crate::images;
use crate::plain::{self, Asked};
use crate::script;
use second::random::Random;

const FILL: u8 = 0xa5;

/// The four numbers of an operation's answer.
fn settled(numbers: Numbers, suite: &mut plain::Suite) -> Result<[u64; 4], u32> {
    let lookup = Asked {
        read_set: u64::from(numbers.read_set),
        write_set: None,
        name: u64::from(numbers.name),
        value: None,
    };
    let remove = Asked {
        write_set: Some(u64::from(numbers.write_set)),
        ..lookup
    };
    let put = Asked {
        value: Some(u64::from(numbers.value)),
        ..remove
    };
    match numbers.op {
        0 => suite.lookup(lookup),
        1 => suite.put(put, false),
        2 => suite.put(put, true),
        3 => suite.remove(remove),
        _ => suite.neighbours(lookup),
    }
}

fn plain_step(
    numbers: Numbers,
    image_in: &[u8],
    image_out: &mut [u8],
    answer: &mut [u8],
) -> Result<(), u32> {
    if numbers.op > 4 {
        return Err(14);
    }
    if answer.len() < 16 {
        return Err(19);
    }
    let mut suite = plain::image::read(image_in)?;
    let settled = settled(numbers, &mut suite)?;
    let image = plain::image::write(&suite);
    if image_out.len() < image.len() {
        return Err(19);
    }
    image_out[..image.len()].copy_from_slice(&image);
    let bytes = settled.map(|number| (number as u32).to_be_bytes()).concat();
    answer[..16].copy_from_slice(&bytes);
    Ok(())
}

#[test]
fn bench_calls_agree() {
    let mut random = Random::new(11);
    let mut source = Source::new(&mut random);
    for _ in 0..6_000 {
        let call = source.next(&mut random);
        let plain = call.outcome(
            |numbers, image_in, image_out, answer| {
                let done = plain_step(numbers, image_in, image_out, answer);
                done.err().unwrap_or(0)
            },
            FILL,
        );
        assert_eq!(call.outcome(bench::step, FILL), plain, "{call:?}");
    }
}

#[test]
fn scripts_agree() {
    let mut random = Random::new(12);
    for _ in 0..150 {
        let count = 1 + random.below(500);
        let lines = script::lines(&mut random, count);
        let text = script::text(&mut random, &lines);
        let mut output = Vec::new();
        second::line::run(&text[..], &mut output).unwrap();
        assert_eq!(String::from_utf8(output).unwrap(), plain::line::run(&text));
    }
}

#[test]
fn image_readers_agree() {
    let mut random = Random::new(13);
    for _ in 0..2_000 {
        let image = images::any(&mut random);
        let second = second::image::read(&image);
        match (&second, plain::image::read(&image)) {
            (Ok(suite), Ok(plain)) => {
                assert_eq!(images::of(suite), image);
                assert_eq!(plain::image::write(&plain), image);
            }
            (Err(refusal), Err(number)) => assert_eq!(refusal.number(), number, "{image:?}"),
            (second, plain) => panic!("{second:?} and {plain:?} on {image:?}"),
        }
    }
}
