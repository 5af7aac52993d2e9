//! With the feature `library`, links the proved static libraries: `libstaticlib.a` and `libstaticlib_replay.a` in the folder that
//! OTSNEBURA_LIBRARY names, or else each in `crates/NAME/out` of the repository, where `rt lib` leaves it.

use std::env;
use std::path::PathBuf;

/// The crates whose archives are linked.
const LIBRARIES: [&str; 2] = ["staticlib", "staticlib_replay"];

/// The folder in which a library's archive lies.
fn folder(library: &str) -> PathBuf {
    let named = env::var_os("OTSNEBURA_LIBRARY").filter(|name| !name.is_empty());
    let package = env::var_os("CARGO_MANIFEST_DIR").expect("cargo sets it");
    let left = PathBuf::from(package).join(format!("../crates/{library}/out"));
    named.map_or(left, PathBuf::from)
}

fn main() {
    println!("cargo:rerun-if-changed=build.rs");
    println!("cargo:rerun-if-env-changed=OTSNEBURA_LIBRARY");
    if env::var_os("CARGO_FEATURE_LIBRARY").is_none() {
        return;
    }
    for library in LIBRARIES {
        let folder = folder(library);
        let archive = folder.join(format!("lib{library}.a"));
        if !archive.exists() {
            panic!("{} is not there; `rt lib` in crates/{library} makes it", archive.display());
        }
        println!("cargo:rustc-link-search=native={}", folder.display());
        println!("cargo:rerun-if-changed={}", archive.display());
        println!("cargo:rustc-link-lib=static={library}");
    }
}
