//! Two things for the build: the source of the oracle's program as a part of this one, and the library's archive for the driver.

use std::env;
use std::fs;
use std::path::{Path, PathBuf};

fn main() {
    let here = PathBuf::from(env::var_os("CARGO_MANIFEST_DIR").expect("cargo says where the package is"));
    the_oracle(&here.join("oracle"));
    the_archive(&here);
}

/// The oracle's main.rs is taken over as it is but for two things: its head comment goes, since it stands inside a module here,
/// and its second look at one of the crate's files goes by that file's full path.
fn the_oracle(oracle: &Path) {
    let source = oracle.join("src/main.rs");
    println!("cargo:rerun-if-changed={}", source.display());
    let text = fs::read_to_string(&source).expect("oracle/src/main.rs: `oracle` is a link to the oracle's folder, see README.md");
    let kept: Vec<&str> = text.lines().filter(|line| !line.starts_with("//!")).collect();
    let folder = oracle.canonicalize().expect("the oracle's folder");
    let full = kept.join("\n").replace("#[path = \"../", &format!("#[path = \"{}/", folder.display()));
    assert!(full.contains("fn run(bytes: &[u8], opt: &Options) -> String"), "the oracle has another shape");
    let out = PathBuf::from(env::var_os("OUT_DIR").expect("cargo says where to write"));
    fs::write(out.join("oracle.rs"), full).expect("oracle.rs is written");
}

/// KOLLAFRIN_LIB, the archive or its folder, else what `tools/archive` writes. Only the driver needs it.
fn the_archive(here: &Path) {
    println!("cargo:rerun-if-env-changed=KOLLAFRIN_LIB");
    let given = env::var_os("KOLLAFRIN_LIB").filter(|given| !given.is_empty()).map(PathBuf::from);
    let mut archive = given.unwrap_or_else(|| here.join("../../target/staticlib"));
    if archive.is_dir() {
        archive.push("libkollafrin.a");
    }
    println!("cargo:rerun-if-changed={}", archive.display());
    println!("cargo:rustc-link-arg-bin=compare={}", archive.display());
}
