//! With the feature `leaves`, links the static library of proved leaves and reader to the benchmark, and to nothing else.
//! LEAVES_DIR is the folder that holds it; LEAVES_LIB is its name between `lib` and `.a` (default: exports).

use std::env;
use std::path::Path;

/// Does nothing without the feature.
fn main() {
    println!("cargo:rerun-if-changed=build.rs");
    println!("cargo:rerun-if-env-changed=LEAVES_DIR");
    println!("cargo:rerun-if-env-changed=LEAVES_LIB");
    if env::var_os("CARGO_FEATURE_LEAVES").is_none() {
        return;
    }
    let folder = env::var("LEAVES_DIR").expect("LEAVES_DIR: the folder of the static library of leaves");
    let name = env::var("LEAVES_LIB").unwrap_or_else(|_| "exports".to_string());
    // Cargo runs this in the package's folder; a relative LEAVES_DIR is meant from there.
    let archive = Path::new(&folder).join(format!("lib{name}.a"));
    let archive = archive.canonicalize().unwrap_or_else(|error| panic!("{}: {error}", archive.display()));
    println!("cargo:rerun-if-changed={}", archive.display());
    println!("cargo:rustc-link-arg-bin=bench={}", archive.display());
}
