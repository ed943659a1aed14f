//! Names the archive of the search to the linker: the folder STAR_SEARCH_LIB, or the repository's target/staticlib.

use std::env;
use std::path::PathBuf;

fn main() {
    let package = PathBuf::from(env::var_os("CARGO_MANIFEST_DIR").expect("cargo sets it"));
    let folder = env::var_os("STAR_SEARCH_LIB").map_or_else(|| package.join("../../target/staticlib"), PathBuf::from);
    let archive = folder.join("libstar_search.a");
    assert!(
        archive.is_file(),
        "{} is missing: make it with `tools/staticlib star_search`, or set STAR_SEARCH_LIB to its folder",
        archive.display()
    );
    println!("cargo:rustc-link-search=native={}", folder.display());
    println!("cargo:rustc-link-lib=static=star_search");
    println!("cargo:rerun-if-env-changed=STAR_SEARCH_LIB");
    println!("cargo:rerun-if-changed={}", archive.display());
}
