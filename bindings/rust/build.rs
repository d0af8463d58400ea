//! Links the static library of the service, `libexports.a`, from the folder that `DIGIT_TABLE_LIBRARY` names, or else from where
//! `tools/build exports` writes it in this repository. It is not built here: that takes the Rattle toolchain.

use std::env;
use std::path::PathBuf;

fn main() {
    println!("cargo:rerun-if-env-changed=DIGIT_TABLE_LIBRARY");
    let folder = env::var_os("DIGIT_TABLE_LIBRARY").map_or_else(in_repository, PathBuf::from);
    let library = folder.join("libexports.a");
    println!("cargo:rerun-if-changed={}", library.display());
    if !library.is_file() {
        panic!(
            "{} is not there: run `tools/build exports` in the repository, or set \
             DIGIT_TABLE_LIBRARY to the folder of libexports.a",
            library.display()
        );
    }
    println!("cargo:rustc-link-search=native={}", folder.display());
    println!("cargo:rustc-link-lib=static=exports");
}

/// Where `tools/build exports` writes the library.
fn in_repository() -> PathBuf {
    let here = env::var_os("CARGO_MANIFEST_DIR").expect("cargo says where this crate is");
    PathBuf::from(here).join("../../target/staticlib")
}
