//! Makes scripts, bench calls and images from a seed, and counts what they bring out.

mod bench_calls;
mod images;
mod script;
mod speed;
mod suites;
mod tally;
mod tally_calls;
mod tally_lines;

use std::fs;
use std::io::{self, Write};
use std::process::ExitCode;

use second::random::Random;
use second::{bench, calls};
use tally::Counts;

const USAGE: &str = "usage:
  generate script SEED COUNT        a script of COUNT lines on standard output
  generate calls SEED COUNT FILE    COUNT bench calls, each as numbers of 32 bits, most
                                    significant byte first: operation, read set, write set,
                                    name, value, length of image in, its bytes, length of
                                    image out, length of the answer
  generate images SEED COUNT FILE   COUNT images, each as a length of 32 bits and its bytes
  generate tally SEED COUNT         runs COUNT lines and COUNT calls and counts the answers;
                                    fails where one was never seen
  generate speed-script SEED        the longest script that the line program reads";

fn main() -> ExitCode {
    let arguments: Vec<String> = std::env::args().skip(1).collect();
    let words: Vec<&str> = arguments.iter().map(String::as_str).collect();
    match run(&words) {
        Some(Ok(true)) => ExitCode::SUCCESS,
        Some(Ok(false)) => ExitCode::FAILURE,
        Some(Err(error)) => {
            eprintln!("generate: {error}");
            ExitCode::FAILURE
        }
        None => {
            eprintln!("{USAGE}");
            ExitCode::FAILURE
        }
    }
}

/// None where the words are not understood; false where the tally is not complete.
fn run(words: &[&str]) -> Option<io::Result<bool>> {
    let (command, seed, rest) = match words {
        [command, seed, rest @ ..] => (*command, seed.parse().ok()?, rest),
        _ => return None,
    };
    let mut random = Random::new(seed);
    let count: usize = rest.first().map_or(Ok(0), |count| count.parse()).ok()?;
    let written = match (command, rest) {
        ("script", [_]) => {
            let lines = script::lines(&mut random, count);
            io::stdout().write_all(&script::text(&mut random, &lines))
        }
        ("calls", [_, file]) => {
            let mut source = bench_calls::Source::new(&mut random);
            let mut bytes = Vec::new();
            (0..count).for_each(|_| source.next(&mut random).write(&mut bytes));
            fs::write(file, bytes)
        }
        ("images", [_, file]) => {
            let mut bytes = Vec::new();
            (0..count).for_each(|_| calls::write_image(&images::any(&mut random), &mut bytes));
            fs::write(file, bytes)
        }
        ("tally", [_]) => {
            let (table, complete) = tallied(&mut random, count);
            return Some(io::stdout().write_all(table.as_bytes()).map(|()| complete));
        }
        ("speed-script", []) => io::stdout().write_all(&speed::text(&mut random)),
        _ => return None,
    };
    Some(written.map(|()| true))
}

/// Runs so many lines and so many calls; gives the table and whether all was seen.
fn tallied(random: &mut Random, count: usize) -> (String, bool) {
    let mut table = String::new();
    let counts = tally_lines::count(random, count);
    let lines = tally::show(&mut table, "line", &tally_lines::LINE, &counts);
    let counts = tallied_calls(random, count);
    let calls = tally::show(&mut table, "bench", &tally_calls::BENCH, &counts);
    (table, lines && calls)
}

/// Each call goes through a record of the file of calls.
fn tallied_calls(random: &mut Random, count: usize) -> Counts {
    let mut counts = Counts::new();
    let mut source = bench_calls::Source::new(random);
    for _ in 0..count {
        let mut file = Vec::new();
        source.next(random).write(&mut file);
        let call = calls::Call::read(&mut &file[..]).expect("the record just written");
        let outcome = call.outcome(bench::step, tally_calls::FILL);
        tally_calls::check_buffers(&outcome);
        tally_calls::note(&mut counts, &call, &outcome);
    }
    counts
}
