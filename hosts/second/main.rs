//! The line program on standard input and output.

use std::process::ExitCode;

fn main() -> ExitCode {
    match second::line::run(std::io::stdin().lock(), std::io::stdout().lock()) {
        Ok(()) => ExitCode::SUCCESS,
        Err(error) => {
            eprintln!("second-line: {error}");
            ExitCode::FAILURE
        }
    }
}
