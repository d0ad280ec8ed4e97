//! Links the proved library, as `rt lib` in crates/capi writes it, or where SEARCH_GRAPH_LIB says.

use std::path::Path;

fn main() {
    println!("cargo:rerun-if-env-changed=SEARCH_GRAPH_LIB");
    let here = std::env::var("CARGO_MANIFEST_DIR").unwrap();
    let library = std::env::var("SEARCH_GRAPH_LIB")
        .unwrap_or(format!("{here}/../../crates/capi/out/libcapi.a"));
    let library = Path::new(&library);
    assert!(
        library.is_file(),
        "no library at {}: run `rt lib` in crates/capi first",
        library.display()
    );
    println!("cargo:rerun-if-changed={}", library.display());
    println!("cargo:rustc-link-search=native={}", library.parent().unwrap().display());
    println!("cargo:rustc-link-lib=static=capi");
}
