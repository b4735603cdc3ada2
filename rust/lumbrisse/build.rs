//! Links `liblumbrisse.a`, the archive of the proved reader, which `rust/build.sh` has `rt` make.

use std::env;
use std::path::{Path, PathBuf};
use std::process::ExitCode;

/// Names the folder that holds the archive, where it is not the repository's own.
const FOLDER: &str = "LUMBRISSE_LIB_DIR";
const ARCHIVE: &str = "liblumbrisse.a";

fn folder() -> PathBuf {
    match env::var_os(FOLDER) {
        Some(given) => PathBuf::from(given),
        None => {
            let package = env::var_os("CARGO_MANIFEST_DIR").unwrap_or_default();
            Path::new(&package).join("../../target/staticlib")
        }
    }
}

fn main() -> ExitCode {
    println!("cargo:rerun-if-env-changed={FOLDER}");
    println!("cargo:rerun-if-changed=build.rs");
    let folder = folder();
    let archive = folder.join(ARCHIVE);
    println!("cargo:rerun-if-changed={}", archive.display());

    let machine = env::var("CARGO_CFG_TARGET_ARCH").unwrap_or_default();
    if machine != "x86_64" {
        eprintln!("{ARCHIVE} has code for x86-64, and this build is for {machine}.");
        eprintln!("Build with --target x86_64-unknown-linux-gnu; the script ./lumbrisse at the repository's root does.");
        return ExitCode::FAILURE;
    }
    if !archive.is_file() {
        eprintln!("The proved reader is missing: {}", archive.display());
        eprintln!("The script ./lumbrisse at the repository's root makes it, or name its folder in {FOLDER}.");
        return ExitCode::FAILURE;
    }
    println!("cargo:rustc-link-search=native={}", folder.display());
    println!("cargo:rustc-link-lib=static=lumbrisse");
    ExitCode::SUCCESS
}
