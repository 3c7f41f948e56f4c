//! Links the proved static library, which the Rattle toolchain writes. It is for x86-64; on a machine of another kind
//! the crate `emulated` takes its place, unless GOLEUTHAN_LIBRARY names a folder with a library for this machine.

use std::path::{Path, PathBuf};

fn main() {
    println!("cargo:rustc-check-cfg=cfg(linked)");
    println!("cargo:rerun-if-env-changed=GOLEUTHAN_LIBRARY");
    let given = std::env::var_os("GOLEUTHAN_LIBRARY").map(PathBuf::from);
    let native = std::env::var("CARGO_CFG_TARGET_ARCH").is_ok_and(|arch| arch == "x86_64");
    let linked = native || given.is_some();
    let made = Path::new(env!("CARGO_MANIFEST_DIR")).join("../../crates/goleuthan/out");
    let folder = given.unwrap_or(made);
    let library = folder.join("libgoleuthan.a");
    println!("cargo:rerun-if-changed={}", library.display());
    if !library.exists() {
        eprintln!("The proved library {} is missing: run `rt lib --cpu=x86-64` in crates/goleuthan first.", library.display());
        std::process::exit(1);
    }
    if linked {
        println!("cargo:rustc-cfg=linked");
        println!("cargo:linked=1");
        println!("cargo:rustc-link-search=native={}", folder.display());
        println!("cargo:rustc-link-lib=static=goleuthan");
    }
}
