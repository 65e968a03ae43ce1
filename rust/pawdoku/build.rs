//! Links libpawdoku.a from the folder that `PAWDOKU_LIB_DIR` names, by default the one that `tools/archive`
//! writes it to.

use std::path::{Path, PathBuf};
use std::process::ExitCode;

fn main() -> ExitCode {
    println!("cargo:rerun-if-env-changed=PAWDOKU_LIB_DIR");
    let folder = std::env::var_os("PAWDOKU_LIB_DIR").map_or_else(default_folder, PathBuf::from);
    let archive = folder.join("libpawdoku.a");
    println!("cargo:rerun-if-changed={}", archive.display());
    if !archive.is_file() {
        eprintln!(
            "{} is not there: make it by `tools/archive`, or name its folder in PAWDOKU_LIB_DIR",
            archive.display()
        );
        return ExitCode::FAILURE;
    }
    println!("cargo:rustc-link-search=native={}", folder.display());
    println!("cargo:rustc-link-lib=static=pawdoku");
    ExitCode::SUCCESS
}

fn default_folder() -> PathBuf {
    Path::new(env!("CARGO_MANIFEST_DIR")).join("../../target/staticlib")
}
