//! Finds the static library under test: folder DREVOKAS_LIB, else ../../target/staticlib seen from this package.

use std::env;
use std::path::PathBuf;

fn main() {
    let package = PathBuf::from(env::var("CARGO_MANIFEST_DIR").unwrap());
    let folder = match env::var("DREVOKAS_LIB") {
        Ok(folder) => PathBuf::from(folder),
        Err(_) => package.join("../../target/staticlib"),
    };
    println!("cargo:rerun-if-env-changed=DREVOKAS_LIB");
    println!("cargo:rerun-if-changed={}", folder.join("libdrevokas.a").display());
    println!("cargo:rustc-link-search=native={}", folder.display());
    println!("cargo:rustc-link-lib=static=drevokas");
}
