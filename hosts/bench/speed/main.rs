//! The bench call's speed beside the second program's, on the longest image and a small one.
//!
//!     speed times REPETITIONS CALLS    processor time in both programs by turns, as rows of a table
//!     speed names                      the images and operations that the next command takes
//!     speed count PROGRAM IMAGE OPERATION CALLS
//!                                      so many calls inside the function `measured_calls`, for callgrind
//!
//! Both lent buffers are cleared before the calls of a repetition, and not between them.

mod clock;
mod work;

use std::hint::black_box;
use std::process::ExitCode;

use second::calls::Step;
use work::Work;

const PROGRAMS: [(&str, Step); 2] = [("bench", directory::step), ("second", second::bench::step)];

fn main() -> ExitCode {
    let words: Vec<String> = std::env::args().skip(1).collect();
    let words: Vec<&str> = words.iter().map(String::as_str).collect();
    match run(&words) {
        Some(()) => ExitCode::SUCCESS,
        None => {
            eprintln!("usage: speed times REPETITIONS CALLS | names | count PROGRAM IMAGE OPERATION CALLS");
            ExitCode::FAILURE
        }
    }
}

fn run(words: &[&str]) -> Option<()> {
    let works = work::all();
    let find = |image: &str, operation: &str| {
        let mut works = works.iter();
        works.find(|work| work.image == image && work.operation == operation)
    };
    match words {
        ["times", repetitions, calls] => {
            let (repetitions, calls) = (repetitions.parse().ok()?, calls.parse().ok()?);
            works.iter().for_each(|work| time(work, repetitions, calls));
        }
        ["names"] => works
            .iter()
            .for_each(|work| println!("{} {}", work.image, work.operation)),
        ["count", program, image, operation, calls] => {
            let (_, step) = PROGRAMS.iter().find(|(name, _)| name == program)?;
            let work = find(image, operation)?;
            let (mut image_out, mut answer) = work::buffers();
            let calls = calls.parse().ok()?;
            measured_calls(*step, work, calls, &mut image_out, &mut answer);
        }
        _ => return None,
    }
    Some(())
}

/// So many calls, the asked ones by turns. Its name is what callgrind counts between.
#[no_mangle]
#[inline(never)]
pub fn measured_calls(
    step: Step,
    work: &Work,
    calls: usize,
    image_out: &mut [u8],
    answer: &mut [u8],
) {
    for asked in work.asked.iter().cycle().take(calls) {
        let result = step(*asked, &work.image_in, image_out, answer);
        assert_eq!(black_box(result), 0, "an accepted call");
    }
}

/// A row of the table: median nanoseconds of a call in both programs, and their ratio.
fn time(work: &Work, repetitions: usize, calls: usize) {
    let mut taken = [const { Vec::new() }; PROGRAMS.len()];
    for _ in 0..repetitions {
        for ((_, step), taken) in PROGRAMS.iter().zip(&mut taken) {
            let (mut image_out, mut answer) = work::buffers();
            let before = clock::nanoseconds();
            measured_calls(*step, work, calls, &mut image_out, &mut answer);
            taken.push((clock::nanoseconds() - before) as f64 / calls as f64);
        }
    }
    let [ours, second] = taken.map(median);
    let (image, operation) = (work.image, work.operation);
    println!(
        "| {image} | {operation} | {ours:.0} | {second:.0} | {:.2} |",
        ours / second
    );
}

fn median(mut taken: Vec<f64>) -> f64 {
    taken.sort_by(f64::total_cmp);
    taken[taken.len() / 2]
}
