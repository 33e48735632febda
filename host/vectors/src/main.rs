//! Reads the output of a samples program and fails unless it has every published CRC-32 value.

use std::io;
use std::process::ExitCode;

fn main() -> ExitCode {
    let output = match io::read_to_string(io::stdin()) {
        Ok(output) => output,
        Err(error) => {
            eprintln!("check_vectors: {error}");
            return ExitCode::FAILURE;
        }
    };
    let published = vectors::published();
    let faults = vectors::faults(&published, &output);
    for fault in &faults {
        eprintln!("check_vectors: {fault}");
    }
    if faults.is_empty() {
        println!("check_vectors: {} values, each printed once as crc32.txt has it", published.len());
        return ExitCode::SUCCESS;
    }
    ExitCode::FAILURE
}
