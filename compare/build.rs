//! Links the archive of the proved code, which a variable names; what stands on
//! it is not built where none is named.

use std::env;
use std::path::PathBuf;

/// The variable that names the archive.
const ARCHIVE: &str = "MOQ_EXPORTS";

fn main() {
    println!("cargo::rerun-if-env-changed={ARCHIVE}");
    println!("cargo::rustc-check-cfg=cfg(exports)");
    let Some(path) = env::var_os(ARCHIVE).map(PathBuf::from) else {
        return;
    };
    let path = path
        .canonicalize()
        .unwrap_or_else(|error| panic!("{ARCHIVE}: {}: {error}", path.display()));
    println!("cargo::rerun-if-changed={}", path.display());
    for bin in ["speed", "live"] {
        println!("cargo::rustc-link-arg-bin={bin}={}", path.display());
    }
    println!("cargo::rustc-cfg=exports");
}
