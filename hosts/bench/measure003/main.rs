//! Report CMU-CS-86-132's two measures, the size ratio and the length of a delete list, over a run
//! of changes through the bench call, as the report's Figure 21 has them.
//!
//!     measure003 OPERATIONS NAMES SEED..    a row of the table for each seed, at about so many names

mod figures;
mod run;

use std::process::ExitCode;

use figures::Figure;
use run::Run;

fn main() -> ExitCode {
    let numbers: Vec<u64> = std::env::args()
        .skip(1)
        .flat_map(|word| word.parse())
        .collect();
    let [operations, names, seeds @ ..] = &numbers[..] else {
        eprintln!("usage: measure003 OPERATIONS NAMES SEED..");
        return ExitCode::FAILURE;
    };
    for &seed in seeds {
        let mut run = Run::new(seed, *names as usize);
        run.operations(operations / 2, false);
        run.operations(operations - operations / 2, true);
        row(seed, &run);
    }
    ExitCode::SUCCESS
}

fn row(seed: u64, run: &Run) {
    let whole = |figure: &Figure| {
        let (mean, most, deviation) = (figure.mean(), figure.most, figure.deviation());
        format!("{mean:.3} | {most:.0} | {deviation:.2}")
    };
    let ratio = &run.size_ratio;
    println!(
        "| seed {seed} | {:.1} | {:.3} | {:.2} | {:.2} | {:.2} | {} | {} | {:.3} | {:.3} | {} |",
        run.names.mean(),
        ratio.mean(),
        ratio.most,
        ratio.deviation(),
        run.suite_ratio.deviation(),
        whole(&run.delete_list),
        whole(&run.coalesced),
        run.inner.mean(),
        run.outer.mean(),
        run.refused,
    );
}
