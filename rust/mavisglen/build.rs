//! Finds the verified static library and tells cargo to link it.
#![forbid(unsafe_code)]

use std::env;
use std::path::PathBuf;

const FOLDER_VARIABLE: &str = "MAVISGLEN_LIB";
const DEFAULT_FOLDER: &str = "../../target/staticlib";
const FILE: &str = "libmavisglen.a";

fn main() {
    println!("cargo:rerun-if-env-changed={FOLDER_VARIABLE}");
    if env::var_os("CARGO_FEATURE_LIBRARY").is_none() {
        return;
    }
    let folder = library_folder();
    let file = folder.join(FILE);
    println!("cargo:rerun-if-changed={}", file.display());
    if !file.is_file() {
        eprintln!(
            "{} is not there: run `.ci/library`, or name its folder in {FOLDER_VARIABLE}",
            file.display()
        );
        std::process::exit(1);
    }
    println!("cargo:rustc-link-search=native={}", folder.display());
    println!("cargo:rustc-link-lib=static=mavisglen");
}

/// A relative folder is taken from the manifest, wherever cargo is run.
fn library_folder() -> PathBuf {
    let manifest = PathBuf::from(env::var_os("CARGO_MANIFEST_DIR").expect("cargo sets the manifest folder"));
    let folder = env::var_os(FOLDER_VARIABLE).unwrap_or_else(|| DEFAULT_FOLDER.into());
    manifest.join(folder)
}
