//! Links crates/capi/out/libcapi.a of the repository, or the one in the folder that SEARCH_GRAPH_LIB names.
use std::path::PathBuf;

fn main() {
    let beside =
        PathBuf::from(std::env::var("CARGO_MANIFEST_DIR").unwrap()).join("../../crates/capi/out");
    let folder = std::env::var("SEARCH_GRAPH_LIB").map(PathBuf::from).unwrap_or(beside);
    let library = folder.join("libcapi.a");
    if !library.exists() {
        panic!("{} is missing: run `rt lib` in crates/capi", library.display());
    }
    println!("cargo:rerun-if-env-changed=SEARCH_GRAPH_LIB");
    println!("cargo:rerun-if-changed={}", library.display());
    println!("cargo:rustc-link-search=native={}", folder.display());
    println!("cargo:rustc-link-lib=static=capi");
}
