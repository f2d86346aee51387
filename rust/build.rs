//! Finds the archive that the crate stands on, and says how to make it where it is missing.
//!
//! `MAYBENOT_CORE_LIB` names the archive or the directory that holds it. Where it is not set, the archive is looked
//! for in `../target/staticlib`, where `tools/build maybenot_core` puts it.

use std::env;
use std::path::{Path, PathBuf};
use std::process::exit;

const ARCHIVE: &str = "libmaybenot_core.a";

/// The directory in which the archive is looked for.
fn directory() -> PathBuf {
    if let Some(given) = env::var_os("MAYBENOT_CORE_LIB") {
        let given = PathBuf::from(given);
        if given.is_file() {
            return given.parent().map(Path::to_path_buf).unwrap_or_default();
        }
        return given;
    }
    let here = env::var_os("CARGO_MANIFEST_DIR").unwrap_or_default();
    Path::new(&here).join("../target/staticlib")
}

fn main() {
    println!("cargo:rerun-if-env-changed=MAYBENOT_CORE_LIB");
    let directory = directory();
    let archive = directory.join(ARCHIVE);
    println!("cargo:rerun-if-changed={}", archive.display());
    if !archive.is_file() {
        eprintln!("maybenot-core: there is no {}", archive.display());
        eprintln!("Make it with `tools/build maybenot_core` in the repository,");
        eprintln!("or name the directory that holds {ARCHIVE} in MAYBENOT_CORE_LIB.");
        exit(1);
    }
    // the linker may run in another directory
    let directory = directory.canonicalize().unwrap_or(directory);
    println!("cargo:rustc-link-search=native={}", directory.display());
    println!("cargo:rustc-link-lib=static=maybenot_core");
}
