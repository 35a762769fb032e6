//! Links libscrollcairn_c.a from the folder in SCROLLCAIRN_LIB, or else from crates/scrollcairn_c/out of the repository.

use std::{env, path::PathBuf};

fn main() {
    println!("cargo:rerun-if-env-changed=SCROLLCAIRN_LIB");
    let here = PathBuf::from(env::var_os("CARGO_MANIFEST_DIR").expect("set by cargo"));
    let folder = match env::var_os("SCROLLCAIRN_LIB") {
        Some(folder) => PathBuf::from(folder),
        None => here.join("../../crates/scrollcairn_c/out"),
    };
    let archive = folder.join("libscrollcairn_c.a");
    println!("cargo:rerun-if-changed={}", archive.display());
    println!("cargo:rustc-link-search=native={}", folder.display());
    println!("cargo:rustc-link-lib=static=scrollcairn_c");
}
