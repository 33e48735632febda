//! `fuzz_corpus FOLDER`: writes the first inputs of each target into a folder of its call's name there, and prints the calls.

use fuzz::{corpus::corpus, TARGETS};
use std::path::Path;
use std::{env, fs, io};

fn main() -> io::Result<()> {
    let folder = env::args_os().nth(1).ok_or_else(|| io::Error::other("usage: fuzz_corpus FOLDER"))?;
    for target in TARGETS {
        let folder = Path::new(&folder).join(target.call);
        fs::create_dir_all(&folder)?;
        for (number, input) in corpus(target.call).into_iter().enumerate() {
            fs::write(folder.join(format!("fixture-{number:03}")), input)?;
        }
        println!("{}", target.call);
    }
    Ok(())
}
