//! Finds the files of sapling-renderdag, checks that each is there and unaltered, and links them where the sources include them from.

mod sha256;

use std::env;
use std::fs;
use std::os::unix::fs::symlink;
use std::path::Path;
use std::path::PathBuf;
use std::process::exit;

/// Where the crate is, seen from a package that is built, unless `RENDERDAG_SRC` says otherwise.
const DEFAULT_PLACE: &str = "../../shared/docs/src";
/// Where the list of checksums is, and this program, seen from a package that is built.
const CHECKSUMS: &str = "../oracle/checksums";
const PROGRAM: &str = "../oracle/build";

/// Checks and links every file that `checksums` names.
pub fn main() {
    println!("cargo:rerun-if-env-changed=RENDERDAG_SRC");
    println!("cargo:rerun-if-changed={CHECKSUMS}");
    println!("cargo:rerun-if-changed={PROGRAM}");
    let package = PathBuf::from(variable("CARGO_MANIFEST_DIR"));
    let links = PathBuf::from(variable("OUT_DIR")).join("renderdag");
    let place = place(&package);
    make_empty(&links);
    for (sum, name) in checksums(&package.join(CHECKSUMS)) {
        let file = place.join(&name);
        println!("cargo:rerun-if-changed={}", file.display());
        check(&file, &sum);
        link(&file, &links);
    }
}

/// A variable that cargo sets for every build script.
fn variable(name: &str) -> String {
    env::var(name).unwrap_or_else(|_| fail(&format!("{name} is not set")))
}

/// The directory that holds the crate's `src`.
fn place(package: &Path) -> PathBuf {
    match env::var_os("RENDERDAG_SRC") {
        Some(place) if !place.is_empty() => PathBuf::from(place),
        _ => package.join(DEFAULT_PLACE),
    }
}

/// The pairs of checksum and file name in the list at `path`, as sha256sum writes them.
fn checksums(path: &Path) -> Vec<(String, String)> {
    let list = fs::read_to_string(path)
        .unwrap_or_else(|error| fail(&format!("{}: {error}", path.display())));
    list.lines()
        .filter_map(|line| line.split_once("  "))
        .map(|(sum, name)| (sum.to_owned(), name.to_owned()))
        .collect()
}

/// Stops the build unless `file` is there and has the checksum `sum`.
fn check(file: &Path, sum: &str) {
    let Ok(bytes) = fs::read(file) else {
        fail(&format!(
            "{} is missing. Put sapling-renderdag 0.2.0 where RENDERDAG_SRC says (the directory that holds src/column.rs), or at {DEFAULT_PLACE} beside oracle/Cargo.toml.",
            file.display()
        ));
    };
    let found = sha256::hexadecimal(&bytes);
    if found != sum {
        fail(&format!(
            "{} is altered: its SHA-256 is {found}, oracle/checksums says {sum}.",
            file.display()
        ));
    }
}

/// Empties the directory that the links go to.
fn make_empty(links: &Path) {
    let _ = fs::remove_dir_all(links);
    fs::create_dir_all(links)
        .unwrap_or_else(|error| fail(&format!("{}: {error}", links.display())));
}

/// Links `file` into `links`. All lie side by side there, so that a `mod` line in one finds the others.
fn link(file: &Path, links: &Path) {
    let real = fs::canonicalize(file)
        .unwrap_or_else(|error| fail(&format!("{}: {error}", file.display())));
    let name = real
        .file_name()
        .unwrap_or_else(|| fail("a checksum without a file name"));
    symlink(&real, links.join(name))
        .unwrap_or_else(|error| fail(&format!("{}: {error}", file.display())));
}

/// Ends the build with a message.
fn fail(message: &str) -> ! {
    eprintln!("oracle: {message}");
    exit(1)
}
