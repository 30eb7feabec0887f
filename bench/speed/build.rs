//! Links the library's archive: KOLLAFRIN_LIB, the archive or its folder, else what `tools/archive` writes.

use std::env;
use std::path::PathBuf;

fn main() {
    println!("cargo:rerun-if-env-changed=KOLLAFRIN_LIB");
    let here = PathBuf::from(env::var_os("CARGO_MANIFEST_DIR").expect("cargo says where the package is"));
    let given = env::var_os("KOLLAFRIN_LIB").filter(|given| !given.is_empty()).map(PathBuf::from);
    let mut archive = given.unwrap_or_else(|| here.join("../../target/staticlib"));
    if archive.is_dir() {
        archive.push("libkollafrin.a");
    }
    println!("cargo:rerun-if-changed={}", archive.display());
    println!("cargo:rustc-link-arg-bins={}", archive.display());
}
