//! Links `libsanirvoq.a`, which `tools/build.sh sanirvoq` writes to `target/staticlib`. `SANIRVOQ_LIB`
//! names another folder that holds it, by an absolute path; where it is set and empty, none is linked.
//!
//! With no archive the crate still builds, documents and is checked, and says so by a warning; a
//! program that calls the stub then does not link. The feature `stand-in` gives tests something to
//! link that only says what is missing.
//!
//! The feature `measure` also links `libbench_read.a`, which `tools/build.sh bench_read` writes, of the
//! same folder. It does not build with either archive missing.

use std::path::{Path, PathBuf};

const ARCHIVE: &str = "libsanirvoq.a";
/// That of the feature `measure`.
const READS: &str = "libbench_read.a";

fn main() {
    println!("cargo::rustc-check-cfg=cfg(stand_in)");
    println!("cargo::rerun-if-env-changed=SANIRVOQ_LIB");
    let missing = match folder() {
        Some(folder) if folder.join(ARCHIVE).is_file() => return link(&folder),
        Some(folder) => format!("{} is not there", folder.join(ARCHIVE).display()),
        None => "SANIRVOQ_LIB is empty".to_owned(),
    };
    assert!(!feature("MEASURE"), "{missing}: run `tools/build.sh sanirvoq` first");
    println!(
        "cargo::warning={missing}: what calls the stub does not link. Run \
         `tools/build.sh sanirvoq`, or name the archive's folder by SANIRVOQ_LIB"
    );
    if feature("STAND_IN") {
        println!("cargo::rustc-cfg=stand_in");
    }
}

fn feature(name: &str) -> bool {
    std::env::var_os(format!("CARGO_FEATURE_{name}")).is_some()
}

fn link(folder: &Path) {
    println!("cargo::rustc-link-search=native={}", folder.display());
    println!("cargo::rustc-link-lib=static=sanirvoq");
    // For the build scripts of the crates that depend on this one.
    println!("cargo::metadata=archive={}", folder.join(ARCHIVE).display());
    if feature("MEASURE") {
        let reads = folder.join(READS);
        let missing = "is not there: run `tools/build.sh bench_read` first";
        assert!(reads.is_file(), "{} {missing}", reads.display());
        println!("cargo::rustc-link-lib=static=bench_read");
        println!("cargo::rerun-if-changed={}", reads.display());
    }
}

/// Where the archive is looked for.
fn folder() -> Option<PathBuf> {
    let folder = match std::env::var_os("SANIRVOQ_LIB").map(PathBuf::from) {
        None => Path::new(env!("CARGO_MANIFEST_DIR")).join("../../target/staticlib"),
        Some(named) if named.as_os_str().is_empty() => return None,
        // A folder that was named and has no archive is a mistake, not a build without one.
        Some(named) => {
            let shown = named.display();
            assert!(named.is_absolute(), "SANIRVOQ_LIB is {shown}, which is no absolute path");
            assert!(named.join(ARCHIVE).is_file(), "SANIRVOQ_LIB is {shown}: it has no {ARCHIVE}");
            named
        }
    };
    println!("cargo::rerun-if-changed={}", folder.join(ARCHIVE).display());
    Some(folder)
}
