//! Links libfusnoch.a, from the directory that FUSNOCH_LIB names, or else from the repository's target/lib.

use std::{env, path::PathBuf};

fn main() {
    let package = env::var("CARGO_MANIFEST_DIR").expect("cargo names the package's directory");
    let directory = match env::var("FUSNOCH_LIB") {
        Ok(directory) if !directory.is_empty() => PathBuf::from(directory),
        _ => PathBuf::from(package).join("../../target/lib"),
    };
    let library = directory.join("libfusnoch.a");
    assert!(
        library.exists(),
        "{} is missing: make lib writes it, or FUSNOCH_LIB names its directory",
        library.display()
    );
    println!("cargo:rerun-if-env-changed=FUSNOCH_LIB");
    println!("cargo:rerun-if-changed={}", library.display());
    println!("cargo:rustc-link-search=native={}", directory.display());
    println!("cargo:rustc-link-lib=static=fusnoch");
}
