//! Finds the library that `rt lib` made, and links it. Where there is none, the package is built all the same: its sessions are then
//! processes of the program `hir_ask`.

use std::path::{Path, PathBuf};
use std::{env, fs};

/// The variable that names the library, where it isn't at its place in the repository.
const VARIABLE: &str = "HIR_C_LIBRARY";

/// The library at its place, seen from the package's folder or from one within it.
fn at_its_place() -> PathBuf {
    let package = PathBuf::from(env::var_os("CARGO_MANIFEST_DIR").unwrap_or_default());
    let within = |folder: &Path| folder.join("crates/hir_c/out/libhir_c.a");
    let near = within(&package.join(".."));
    if near.exists() || package.join("build.rs").exists() {
        near
    } else {
        within(&package.join("../.."))
    }
}

fn main() {
    println!("cargo:rustc-check-cfg=cfg(hir_c, hir_serde)");
    if env::var_os("CARGO_FEATURE_SERDE").is_some() {
        println!("cargo:rustc-cfg=hir_serde");
    }
    println!("cargo:rerun-if-env-changed={VARIABLE}");
    let (library, is_named) = match env::var_os(VARIABLE) {
        Some(path) => (PathBuf::from(path), true),
        None => (at_its_place(), false),
    };
    println!("cargo:rerun-if-changed={}", library.display());
    let folder = PathBuf::from(env::var_os("OUT_DIR").unwrap_or_default());
    match fs::copy(&library, folder.join("libhir_c.a")) {
        Ok(_) => {
            println!("cargo:rustc-link-search=native={}", folder.display());
            println!("cargo:rustc-link-lib=static=hir_c");
            println!("cargo:rustc-cfg=hir_c");
        }
        Err(error) if is_named => println!(
            "cargo:warning={} can't be read ({error}): sessions are processes of the program that HIR_ASK_PROGRAM names",
            library.display()
        ),
        Err(_) => {}
    }
}
