//! Finds the proved static library and has it linked. It is looked for in the folder that the environment variable names,
//! or else where `scripts/library` puts it.

use std::env;
use std::path::{Path, PathBuf};

const LIBRARY: &str = "libreader_export.a";
const VARIABLE: &str = "OUINET_READER_LIB_DIR";

fn folder() -> PathBuf {
    match env::var_os(VARIABLE) {
        Some(named) => PathBuf::from(named),
        None => {
            let package = env::var_os("CARGO_MANIFEST_DIR").unwrap_or_default();
            let top = Path::new(&package).ancestors().nth(2).unwrap_or(Path::new("."));
            top.join("target/staticlib")
        }
    }
}

fn main() {
    println!("cargo::rerun-if-env-changed={VARIABLE}");
    let folder = folder();
    let library = folder.join(LIBRARY);
    println!("cargo::rerun-if-changed={}", library.display());
    if !library.is_file() {
        println!(
            "cargo::error={} is missing: run `scripts/library` at the top of the repository, or set {VARIABLE} \
             to the folder that holds {LIBRARY}",
            library.display()
        );
        return;
    }
    println!("cargo::rustc-link-search=native={}", folder.display());
    println!("cargo::rustc-link-lib=static=reader_export");
}
