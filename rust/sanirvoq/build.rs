//! Sets `archive` where sanirvoq-sys found one to link, for the tests and examples that call it.

fn main() {
    println!("cargo::rustc-check-cfg=cfg(archive)");
    println!("cargo::rerun-if-changed=build.rs");
    if std::env::var_os("DEP_SANIRVOQ_ARCHIVE").is_some() {
        println!("cargo::rustc-cfg=archive");
    }
}
