//! Links the static library of the crate controller, which `tools/build` writes. It is looked for in
//! target/staticlib at the top of the repository, or in the folder that WICHTEAB_STATICLIB_DIR names.

use std::env;
use std::path::PathBuf;

fn main() {
    println!("cargo:rerun-if-changed=build.rs");
    println!("cargo:rerun-if-env-changed=WICHTEAB_STATICLIB_DIR");
    let folder = env::var_os("WICHTEAB_STATICLIB_DIR").map_or_else(in_repository, PathBuf::from);
    let archive = folder.join("libcontroller.a");
    if !archive.is_file() {
        panic!("no {}: run `tools/build` first", archive.display());
    }
    println!("cargo:rerun-if-changed={}", archive.display());
    println!("cargo:rustc-link-search=native={}", folder.display());
    println!("cargo:rustc-link-lib=static=controller");
    // the test of `make install` copies the archive that the tool was linked with
    println!("cargo:rustc-env=WICHTEAB_ARCHIVE={}", archive.display());
}

fn in_repository() -> PathBuf {
    let package = PathBuf::from(env::var_os("CARGO_MANIFEST_DIR").expect("set by cargo"));
    package.join("../../target/staticlib")
}
