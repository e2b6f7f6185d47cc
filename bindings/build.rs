//! Finds libsqimrutta.a and tells rustc to link it.

use std::env;
use std::path::{Path, PathBuf};

const LIBRARY: &str = "libsqimrutta.a";

fn main() {
    println!("cargo::rerun-if-changed=build.rs");
    println!("cargo::rerun-if-env-changed=SQIMRUTTA_LIB");
    let (folder, told_by) = match env::var_os("SQIMRUTTA_LIB") {
        Some(folder) => (PathBuf::from(folder), "named by SQIMRUTTA_LIB"),
        None => (Path::new(env!("CARGO_MANIFEST_DIR")).join("../target/staticlib"), "where `tools/library` puts it"),
    };
    let library = folder.join(LIBRARY);
    // A file that is not there yet counts as changed, so the next build looks again.
    println!("cargo::rerun-if-changed={}", library.display());
    match folder.canonicalize() {
        Ok(whole) if library.is_file() => {
            println!("cargo::rustc-link-search=native={}", whole.display());
            println!("cargo::rustc-link-lib=static=sqimrutta");
        }
        _ => println!(
            "cargo::error={LIBRARY} is not in {} ({told_by}). Run `tools/library` in the folder above bindings/, \
             or put the folder that has the library into the environment variable SQIMRUTTA_LIB.",
            folder.display()
        ),
    }
}
