//! Tells the linker where the static library stands: libgiqapsun.a in the folder GIQAPSUN_LIB_DIR, an absolute path,
//! or, if that is not set, in target/staticlib of the repository.

use std::env;
use std::path::PathBuf;

/// A missing library ends the build with one line.
pub fn main() {
    println!("cargo::rerun-if-env-changed=GIQAPSUN_LIB_DIR");
    let built = concat!(env!("CARGO_MANIFEST_DIR"), "/../../target/staticlib");
    let folder = env::var_os("GIQAPSUN_LIB_DIR").map_or_else(|| PathBuf::from(built), PathBuf::from);
    let library = folder.join("libgiqapsun.a");
    println!("cargo::rerun-if-changed={}", library.display());
    if !library.is_file() {
        let (missing, remedy) =
            (library.display(), "run `tools/build giqapsun`, or set GIQAPSUN_LIB_DIR to its folder");
        println!("cargo::error={missing} is missing: {remedy}");
    }
    println!("cargo::rustc-link-search=native={}", folder.display());
    println!("cargo::rustc-link-lib=static=giqapsun");
}
