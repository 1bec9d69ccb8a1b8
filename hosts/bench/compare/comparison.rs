//! One call after another through both programs.

use std::process;

use directory::{fenced, guarded};
use second::bench;
use second::calls::{Call, Outcome};

use crate::tally::Counts;
use crate::tally_calls::{check_buffers, note, FILL};

#[derive(Default)]
pub struct Comparison {
    pub calls: usize,
    pub counts: Counts,
}

impl Comparison {
    /// Hands the call to both, to ours between guard bytes and in front of closed pages; says
    /// how they differ and ends where they do.
    pub fn compare(&mut self, call: &Call) {
        let second = call.outcome(bench::step, FILL);
        for step in [guarded::step, fenced::step] {
            let ours = call.outcome(step, FILL);
            if ours != second {
                differ(call, &ours, &second);
            }
        }
        check_buffers(&second);
        note(&mut self.counts, call, &second);
        self.calls += 1;
    }

    pub fn add(&mut self, other: Comparison) {
        self.calls += other.calls;
        for (kind, seen) in other.counts {
            *self.counts.entry(kind).or_default() += seen;
        }
    }
}

fn differ(call: &Call, ours: &Outcome, second: &Outcome) -> ! {
    eprintln!("compare: the programs differ on {:?}", call.asked);
    eprintln!(
        "image in, {} bytes: {}",
        call.image_in.len(),
        hex(&call.image_in)
    );
    eprintln!("given: {}, second program {}", ours.result, second.result);
    for (what, ours, second) in [
        ("image out", &ours.image_out, &second.image_out),
        ("answer", &ours.answer, &second.answer),
    ] {
        if ours != second {
            eprintln!("{what}, {} bytes lent: {}", ours.len(), hex(ours));
            eprintln!("second program's: {}", hex(second));
        }
    }
    process::exit(1);
}

fn hex(bytes: &[u8]) -> String {
    bytes.iter().map(|byte| format!("{byte:02x}")).collect()
}
