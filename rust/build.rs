//! Finds the archive of the library, or makes it: the file that BROTHPILLOW_LIBRARY names, else target/library/libbrothpillow.a of the repository,
//! which bin/library makes where it is not there yet.
use std::env;
use std::fs;
use std::path::{Path, PathBuf};
use std::process::{Command, exit};

const GIVEN: &str = "BROTHPILLOW_LIBRARY";
const NAME: &str = "libbrothpillow.a";

fn fail(why: &str) -> ! {
    eprintln!("{why}\nMake the archive with bin/library in the repository, or name one: {GIVEN}=/path/to/{NAME}");
    exit(1)
}

fn folder(name: &str) -> PathBuf {
    env::var_os(name).map_or_else(|| fail(&format!("cargo gave no {name}")), PathBuf::from)
}

/// The repository's archive, made where it is not there yet.
fn made(repository: &Path) -> PathBuf {
    let archive = repository.join("target/library").join(NAME);
    if !archive.is_file() {
        let tool = repository.join("bin/library");
        match Command::new(&tool).status() {
            Ok(ended) if ended.success() => (),
            Ok(ended) => fail(&format!("{} failed: {ended}", tool.display())),
            Err(why) => fail(&format!("{} can't be run: {why}", tool.display())),
        }
    }
    archive
}

fn main() {
    println!("cargo::rerun-if-env-changed={GIVEN}");
    println!("cargo::rerun-if-changed=build.rs");
    let archive = env::var_os(GIVEN).map_or_else(|| made(&folder("CARGO_MANIFEST_DIR").join("..")), PathBuf::from);
    println!("cargo::rerun-if-changed={}", archive.display());
    // a copy, so that the linker finds it under this name whatever the given file is called
    let out = folder("OUT_DIR");
    if let Err(why) = fs::copy(&archive, out.join(NAME)) {
        fail(&format!("{} can't be read: {why}", archive.display()));
    }
    println!("cargo::rustc-link-search=native={}", out.display());
    println!("cargo::rustc-link-lib=static=brothpillow");
}
