//! Finds the archive `libkollafrin.a`: in KOLLAFRIN_LIB, the archive or the folder it lies in, else in target/staticlib of the
//! repository, where `tools/archive` writes it.

use std::env;
use std::path::PathBuf;

fn main() {
    println!("cargo:rerun-if-env-changed=KOLLAFRIN_LIB");
    let given = env::var_os("KOLLAFRIN_LIB").filter(|given| !given.is_empty()).map(PathBuf::from);
    let mut folder = given.unwrap_or_else(|| {
        let here = PathBuf::from(env::var_os("CARGO_MANIFEST_DIR").expect("cargo says where the package is"));
        here.join("../../target/staticlib")
    });
    if folder.extension().map_or(false, |e| e == "a") {
        folder.pop();
        if folder.as_os_str().is_empty() {
            folder.push(".");
        }
    }
    let folder = folder.canonicalize().unwrap_or(folder);
    let archive = folder.join("libkollafrin.a");
    println!("cargo:rerun-if-changed={}", archive.display());
    if !archive.is_file() {
        println!("cargo:warning=no libkollafrin.a in {}: run `tools/archive`, or set KOLLAFRIN_LIB", folder.display());
    }
    println!("cargo:rustc-link-search=native={}", folder.display());
    println!("cargo:rustc-link-lib=static=kollafrin");
}
