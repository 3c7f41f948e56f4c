//! Tells the tests whether the library is linked, which only then can be stepped through (see goleuthan/build.rs).

fn main() {
    println!("cargo:rustc-check-cfg=cfg(linked)");
    if std::env::var_os("DEP_GOLEUTHAN_LINKED").is_some() {
        println!("cargo:rustc-cfg=linked");
    }
}
