//! Finds libsettlement_c.a and links it: in the folder that SETTLEMENT_LIB names, else in ../target/staticlib, where
//! the repository's tools/libraries writes it, else in ../lib, where a package has it. Without one nothing is linked, and a
//! warning says so: `cargo doc` and `cargo check` need none.

use std::path::{Path, PathBuf};
use std::{env, process};

const ARCHIVE: &str = "libsettlement_c.a";
const HOW: &str =
    "run `tools/libraries` in the repository's root, or set SETTLEMENT_LIB to the absolute path of the \
                   folder that holds libsettlement_c.a";

fn fail(what: &str) -> ! {
    eprintln!("fiber_settlement: {what}: {HOW}.");
    process::exit(1)
}

/// The folder that SETTLEMENT_LIB names. What is named has to be there.
fn named() -> Option<PathBuf> {
    let folder = PathBuf::from(env::var_os("SETTLEMENT_LIB").filter(|value| !value.is_empty())?);
    if !folder.is_absolute() {
        fail(&format!("SETTLEMENT_LIB is {}, which is no absolute path", folder.display()));
    }
    if !folder.join(ARCHIVE).is_file() {
        fail(&format!("SETTLEMENT_LIB is {}, where there is no {ARCHIVE}", folder.display()));
    }
    Some(folder)
}

/// The folders beside the crate that may have the archive: the repository's, then the package's.
fn beside() -> Vec<PathBuf> {
    let crate_folder = PathBuf::from(env::var_os("CARGO_MANIFEST_DIR").unwrap_or_default());
    let parent = crate_folder.parent().unwrap_or(&crate_folder);
    vec![parent.join("target").join("staticlib"), parent.join("lib")]
}

/// The archive holds machine code of x86-64 Linux.
fn check_target() {
    let of = |name: &str| env::var(name).unwrap_or_default();
    let (arch, os) = (of("CARGO_CFG_TARGET_ARCH"), of("CARGO_CFG_TARGET_OS"));
    if (arch.as_str(), os.as_str()) != ("x86_64", "linux") {
        eprintln!("fiber_settlement: {ARCHIVE} is for x86_64 linux, and the target is {arch} {os}.");
        process::exit(1)
    }
}

fn link(folder: &Path) {
    check_target();
    println!("cargo:rerun-if-changed={}", folder.join(ARCHIVE).display());
    println!("cargo:rustc-link-search=native={}", folder.display());
    println!("cargo:rustc-link-lib=static=settlement_c");
}

/// Nothing is linked, and the next build looks again.
fn go_without(folders: &[PathBuf]) {
    for folder in folders {
        println!("cargo:rerun-if-changed={}", folder.join(ARCHIVE).display());
    }
    println!(
        "cargo:warning=there is no {ARCHIVE}, so nothing is linked: `cargo doc` and `cargo check` work, a program or a test \
         ends with missing fiber_settlement_ symbols; {HOW}"
    );
}

fn main() {
    println!("cargo:rerun-if-changed=build.rs");
    println!("cargo:rerun-if-env-changed=SETTLEMENT_LIB");
    let folders = beside();
    let found = || folders.iter().find(|folder| folder.join(ARCHIVE).is_file()).cloned();
    match named().or_else(found) {
        Some(folder) => link(&folder),
        None => go_without(&folders),
    }
}
