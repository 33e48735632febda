//! Lists a layout text from standard input as sample 10 says (S10 to S13).

use std::io::{self, Read, Write};
use std::process::ExitCode;

fn main() -> ExitCode {
    let mut text = Vec::new();
    if let Err(error) = io::stdin().lock().read_to_end(&mut text) {
        eprintln!("Standard input can't be read: {error}.");
        return ExitCode::FAILURE;
    }
    let lines = second::listing::listing(&text);
    match io::stdout().lock().write_all(lines.as_bytes()) {
        Ok(()) => ExitCode::SUCCESS,
        Err(error) => {
            eprintln!("Standard output can't be written: {error}.");
            ExitCode::FAILURE
        }
    }
}
