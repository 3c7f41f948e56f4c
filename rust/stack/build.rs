//! Tells the tests whether the library as it is shipped is linked, whose stack can then be measured (see
//! goleuthan/build.rs). Symbols are bound when a test begins: the first call of a function that is bound lazily would
//! count the loader's work as its own.

fn main() {
    println!("cargo:rustc-check-cfg=cfg(shipped)");
    let shipped = std::env::var("CARGO_CFG_TARGET_ARCH").is_ok_and(|arch| arch == "x86_64");
    if shipped && std::env::var_os("DEP_GOLEUTHAN_LINKED").is_some() {
        println!("cargo:rustc-cfg=shipped");
        println!("cargo:rustc-link-arg-tests=-Wl,-z,now");
    }
}
