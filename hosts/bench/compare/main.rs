//! The bench call of `libbench.a` against the second program's, on many calls: what they
//! give, every byte of image out and of the answer, and every byte around what was lent.

#[path = "../../second/generate/bench_calls.rs"]
mod bench_calls;
#[path = "../../second/generate/images.rs"]
mod images;
#[path = "../../second/generate/suites.rs"]
mod suites;
#[path = "../../second/generate/tally.rs"]
mod tally;
#[path = "../../second/generate/tally_calls.rs"]
mod tally_calls;

mod cases;
mod comparison;
mod shapes;

use std::process::ExitCode;
use std::thread;

use bench_calls::Source;
use comparison::Comparison;
use second::random::Random;

fn main() -> ExitCode {
    let arguments: Vec<u64> = std::env::args()
        .skip(1)
        .flat_map(|word| word.parse())
        .collect();
    let &[seed, count] = &arguments[..] else {
        eprintln!("usage: compare SEED COUNT, COUNT being the number of generated calls");
        return ExitCode::FAILURE;
    };
    let mut all = Comparison::default();
    for (what, part) in parts(seed, count as usize) {
        println!("{:>9} calls: {what}", part.calls);
        all.add(part);
    }
    let mut table = String::new();
    let complete = tally::show(&mut table, "bench", &tally_calls::BENCH, &all.counts);
    print!("{table}");
    if complete {
        ExitCode::SUCCESS
    } else {
        eprintln!("compare: some refusal or kind of answer was never seen");
        ExitCode::FAILURE
    }
}

fn parts(seed: u64, count: usize) -> Vec<(&'static str, Comparison)> {
    let mut random = Random::new(seed);
    vec![
        ("generated, in two threads at once", generated(seed, count)),
        ("every shape, every length of both buffers", shapes::every()),
        ("every cut of an image", cases::cuts()),
        ("every flipped bit of an image", cases::flips()),
        ("random bytes", cases::random_bytes(&mut random, count / 8)),
        ("damaged images", cases::damaged(&mut random, count / 8)),
    ]
}

/// Calls of the generator. The two threads call at the same time, since the call keeps no
/// state of its own.
fn generated(seed: u64, count: usize) -> Comparison {
    let run = |seed| {
        let mut random = Random::new(seed);
        let mut source = Source::new(&mut random);
        let mut comparison = Comparison::default();
        for _ in 0..count / 2 {
            comparison.compare(&source.next(&mut random));
        }
        comparison
    };
    let mut both = thread::scope(|scope| {
        let other = scope.spawn(|| run(!seed));
        let mut this = run(seed);
        this.add(other.join().expect("the other thread has said what it saw"));
        this
    });
    both.calls = count / 2 * 2;
    both
}
