// Shared by the build scripts: links an archive of proved functions, libNAME.a in the repository's target/staticlib,
// where the command puts it, or in the folder that USIGRAMBAL_LIB_DIR names.

use std::env;
use std::path::{Path, PathBuf};

fn link_archive(name: &str, command: &str) {
    println!("cargo:rerun-if-env-changed=USIGRAMBAL_LIB_DIR");
    let folder = match env::var_os("USIGRAMBAL_LIB_DIR") {
        Some(folder) => PathBuf::from(folder),
        None => Path::new(env!("CARGO_MANIFEST_DIR")).join("../../target/staticlib"),
    };
    let archive = folder.join(format!("lib{name}.a"));
    println!("cargo:rerun-if-changed={}", archive.display());
    if !archive.is_file() {
        eprintln!(
            "{} is missing: run `{command}`, or name its folder in USIGRAMBAL_LIB_DIR",
            archive.display()
        );
        std::process::exit(1);
    }
    println!("cargo:rustc-link-search=native={}", folder.display());
    println!("cargo:rustc-link-lib=static={name}");
}
