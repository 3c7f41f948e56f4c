//! Builds the service: a C program with the proved library in it, which runs under an emulator.

use std::path::Path;
use std::process::Command;

fn main() {
    let here = Path::new(env!("CARGO_MANIFEST_DIR"));
    let out = std::env::var("OUT_DIR").expect("cargo sets OUT_DIR");
    let program = Path::new(&out).join("service");
    for file in ["link.sh", "service.c", "../../include/goleuthan.h", "../../crates/goleuthan/out/libgoleuthan.a"] {
        println!("cargo:rerun-if-changed={}", here.join(file).display());
    }
    let linked = Command::new("sh").arg(here.join("link.sh")).arg(here.join("service.c")).arg(&program).status();
    if !linked.is_ok_and(|status| status.success()) {
        eprintln!("The service could not be built (see above).");
        std::process::exit(1);
    }
    println!("cargo:rustc-env=GOLEUTHAN_SERVICE={}", program.display());
    println!("cargo:rustc-env=GOLEUTHAN_RUN={}", here.join("../../scripts/run.sh").display());
}
