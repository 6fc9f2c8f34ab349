//! Builds the proved library by the repository's own script, and tells cargo to link it.

use std::env;
use std::path::{Path, PathBuf};
use std::process::{exit, Command, Stdio};

fn main() {
    let root = directory("CARGO_MANIFEST_DIR").join("..");
    watch(&root);
    let archive = root.join(build(&root.join("tools/library")));
    // One that was built here is newer than this very run, and would have it run again each time.
    if env::var_os("TALLY_LIBRARY").is_some() {
        println!("cargo:rerun-if-changed={}", archive.display());
    }

    let copy = directory("OUT_DIR").join("libexports.a");
    if let Err(error) = std::fs::copy(&archive, &copy) {
        give_up(&format!("the archive {} can't be read: {error}", archive.display()));
    }
    println!("cargo:rustc-link-search=native={}", directory("OUT_DIR").display());
    println!("cargo:rustc-link-lib=static=exports");
}

/// A folder that cargo names in the environment.
fn directory(variable: &str) -> PathBuf {
    match env::var_os(variable) {
        Some(path) => PathBuf::from(path),
        None => give_up(&format!("cargo did not set {variable}")),
    }
}

/// What the archive is made of: cargo asks again when one of these changes.
fn watch(root: &Path) {
    for source in ["crates.txt", "rattle-kit", "tools/library"] {
        println!("cargo:rerun-if-changed={}", root.join(source).display());
    }
    // What a build leaves in a crate's `out` is newer than this very run too.
    let crates = std::fs::read_dir(root.join("crates")).into_iter().flatten().flatten();
    for part in crates.flat_map(|entry| ["src", "specs", "proofs"].map(|part| entry.path().join(part))) {
        if part.is_dir() {
            println!("cargo:rerun-if-changed={}", part.display());
        }
    }
    for variable in ["TALLY_LIBRARY", "TALLY_PROCESSOR"] {
        println!("cargo:rerun-if-env-changed={variable}");
    }
}

/// Runs the script; its last line names the archive, and what it says besides goes to the reader.
fn build(script: &Path) -> PathBuf {
    let output = Command::new(script).stderr(Stdio::inherit()).output();
    let output = match output {
        Ok(output) => output,
        Err(error) => give_up(&format!("{} can't be run: {error}", script.display())),
    };
    if !output.status.success() {
        give_up(&format!("{} failed ({})", script.display(), output.status));
    }
    match String::from_utf8_lossy(&output.stdout).lines().last() {
        Some(line) => PathBuf::from(line),
        None => give_up(&format!("{} named no archive", script.display())),
    }
}

/// Ends the build with words that say what to do.
fn give_up(what: &str) -> ! {
    eprintln!("the proved library could not be had: {what}");
    eprintln!(
        "Install the Rattle kit that the file rattle-kit names, so that its command rt is found, and build again;"
    );
    eprintln!("or set TALLY_LIBRARY to the path of a libexports.a that was built elsewhere.");
    exit(1)
}
