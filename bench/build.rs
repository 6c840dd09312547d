//! Links the crate's files, as the oracle's build does, and our static library.

#[path = "../oracle/build/main.rs"]
mod crate_files;

use std::env;

/// The crate's files, and the library that bench/run put into the folder that `WHOLE_HISTORY` names.
fn main() {
    crate_files::main();
    println!("cargo:rerun-if-env-changed=WHOLE_HISTORY");
    let place = env::var("WHOLE_HISTORY").unwrap_or_else(|_| "../target/staticlib".to_owned());
    println!("cargo:rerun-if-changed={place}/libwhole_history.a");
    println!("cargo:rustc-link-search=native={place}");
    println!("cargo:rustc-link-lib=static=whole_history");
}
