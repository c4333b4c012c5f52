//! Links the proved calls: the static library in `LATCHTWIG_LIB_DIR` if that is set, else the one that `host/build`, in the repository around this crate, proves and builds for the
//! machine that cargo builds for.
//!
//! Where there is no library, the script says why, as a warning, and does not fail: documentation and `cargo check` need none. A build then stops at "could not find native static
//! library `latchtwig`", below the warning.

use std::env;
use std::fs::{self, OpenOptions};
use std::io::Write;
use std::path::{Path, PathBuf};
use std::process::Command;

const VARIABLE: &str = "LATCHTWIG_LIB_DIR";
const LIBRARY: &str = "liblatchtwig.a";

/// What the library is made by, in the repository, and which crates there are.
const MAKERS: [&str; 2] = ["crates.txt", "host/build"];

/// What it is made of, in each crate. Its `out` is not among them: proving writes there.
const PARTS: [&str; 3] = ["src", "specs", "proofs"];

fn main() {
    println!("cargo:rerun-if-env-changed={VARIABLE}");
    println!("cargo:rerun-if-changed=build.rs");
    println!("cargo:rustc-link-lib=static=latchtwig");
    match directory() {
        Ok(directory) => println!("cargo:rustc-link-search=native={}", directory.display()),
        Err(why) => {
            // A line is a warning of its own. A file that is never there has the script run again, as whatever was missing may be there then.
            for line in why.lines() {
                println!("cargo:warning={line}");
            }
            println!("cargo:rerun-if-changed=no-library");
        }
    }
}

/// Where the library is, for the machine that is built for.
fn directory() -> Result<PathBuf, String> {
    let target = env::var("TARGET").unwrap_or_default();
    if !has_library(&target) {
        return Err(format!(
            "the static library is for x86-64 and aarch64 Linux, and this build is for {target}; name another target, as in: cargo build --target x86_64-unknown-linux-gnu"
        ));
    }
    match env::var_os(VARIABLE) {
        Some(named) => found(PathBuf::from(named)),
        None => built(&target),
    }
}

/// A target of Linux on one of two machines, with their own pointers.
fn has_library(target: &str) -> bool {
    let machine = ["x86_64-", "aarch64-"]
        .iter()
        .any(|machine| target.starts_with(machine));
    let width = env::var("CARGO_CFG_TARGET_POINTER_WIDTH").unwrap_or_default();
    machine && target.contains("-linux-") && width == "64"
}

/// The directory that was named, if the library is there.
fn found(directory: PathBuf) -> Result<PathBuf, String> {
    let library = directory.join(LIBRARY);
    if !library.is_file() {
        return Err(format!(
            "{VARIABLE} is set, and {} is not there",
            library.display()
        ));
    }
    println!("cargo:rerun-if-changed={}", library.display());
    Ok(directory)
}

/// Builds the library by the repository, which proves it first, and answers its directory.
fn built(target: &str) -> Result<PathBuf, String> {
    let crate_directory = env::var_os("CARGO_MANIFEST_DIR").unwrap_or_default();
    let root = Path::new(&crate_directory).join("../..");
    if !root.join("crates/latchtwig/src/lib.rt").is_file() {
        return Err(format!(
            "this crate does not stand in its repository; set {VARIABLE} to the directory of {LIBRARY}"
        ));
    }
    for source in sources(&root) {
        println!("cargo:rerun-if-changed={}", source.display());
    }
    tell("latchtwig: waiting for `host/build`, which proves the calls; the first time that takes minutes");
    let directory = PathBuf::from(env::var_os("OUT_DIR").unwrap_or_default());
    match Command::new(root.join("host/build"))
        .args(["--target", target])
        .arg(&directory)
        .output()
    {
        Ok(said) if said.status.success() => Ok(directory),
        Ok(said) => Err(format!(
            "`host/build` failed; mend what it says, or set {VARIABLE} to the directory of {LIBRARY}\n{}{}",
            String::from_utf8_lossy(&said.stdout),
            String::from_utf8_lossy(&said.stderr)
        )),
        Err(error) => Err(format!(
            "`host/build` did not start ({error}); set {VARIABLE} to the directory of {LIBRARY}"
        )),
    }
}

/// What the library is made by and made of.
fn sources(root: &Path) -> Vec<PathBuf> {
    let mut found: Vec<PathBuf> = MAKERS.iter().map(|maker| root.join(maker)).collect();
    for entry in fs::read_dir(root.join("crates"))
        .into_iter()
        .flatten()
        .flatten()
    {
        let parts = PARTS.iter().map(|part| entry.path().join(part));
        found.extend(parts.filter(|part| part.is_dir()));
    }
    found.sort();
    found
}

/// Tells whoever waits. Cargo keeps what a script prints until it ends, so the line goes to the terminal itself, if there is one.
fn tell(line: &str) {
    eprintln!("{line}");
    if let Ok(mut terminal) = OpenOptions::new().write(true).open("/dev/tty") {
        let _ = writeln!(terminal, "{line}");
    }
}
