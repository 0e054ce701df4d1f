//! Finds the library of the proved calls, or has it made, and links it.
//!
//! The variable CUP_ARCHIVE names another library with the same functions in its place.

use std::path::{Path, PathBuf};
use std::process::{exit, Command};
use std::{env, fs};

/// Where `tools/build` puts the library, from the repository's root.
const ARCHIVE: &str = "target/staticlib/libcup.a";

fn main() {
    println!("cargo:rerun-if-env-changed=CUP_ARCHIVE");
    let archive = match env::var_os("CUP_ARCHIVE") {
        Some(named) => PathBuf::from(named),
        None => made_archive(),
    };
    println!("cargo:rerun-if-changed={}", archive.display());
    // A copy, so that the name to link by is the same whatever the library is called.
    let folder = PathBuf::from(env::var_os("OUT_DIR").expect("cargo sets OUT_DIR"));
    let copy = folder.join("libcup.a");
    if let Err(error) = fs::copy(&archive, &copy) {
        fail(&format!("{}: {error}", archive.display()));
    }
    println!("cargo:rustc-link-search=native={}", folder.display());
    println!("cargo:rustc-link-lib=static=cup");
    // The test that compiles a program in C links the same copy.
    println!("cargo:rustc-env=CUP_LINKED={}", copy.display());
}

/// The library in the repository, made if it is not there.
fn made_archive() -> PathBuf {
    let package = PathBuf::from(env::var_os("CARGO_MANIFEST_DIR").expect("cargo sets it"));
    let root = package.join("../..");
    let archive = root.join(ARCHIVE);
    if !archive.exists() {
        make_archive(&root);
    }
    archive
}

fn make_archive(root: &Path) {
    let status = Command::new(root.join("tools/build")).arg("cup").status();
    match status {
        Ok(status) if status.success() => (),
        Ok(status) => fail(&format!("'tools/build cup' ended with {status}")),
        Err(error) => fail(&format!("'tools/build cup' does not start: {error}")),
    }
}

fn fail(reason: &str) -> ! {
    eprintln!("cup-bridge needs the library of the proved calls, {ARCHIVE} in the repository.");
    eprintln!("It is made by 'tools/build cup', with the Rattle toolchain's rt on the PATH.");
    eprintln!("{reason}");
    exit(1);
}
