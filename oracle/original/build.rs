//! Reads the three files of the original, applies the edits, and writes the result to OUT_DIR.
//! Nothing of the original stands in this repository.

use std::path::{Path, PathBuf};
use std::{env, fs};

mod apply;
mod edits;
mod wrong_readings;

use apply::{Edit, edited, stop};

const FILES: [&str; 3] = ["mod.rs", "stack.rs", "global_cache.rs"];

/// Modules of our own that stand inside the original, to see its private parts.
const INSIDE: [(&str, &str); 4] = [
    ("checks.rs", "checks.rs"),
    ("extensions.rs", "extensions.rs"),
    ("cache_access.rs", "global_cache/cache_access.rs"),
    ("wrongly.rs", "wrongly.rs"),
];

fn main() {
    println!("cargo::rerun-if-env-changed=SEARCH_GRAPH_SRC");
    for list in ["build.rs", "apply.rs", "edits.rs", "wrong_readings"] {
        println!("cargo::rerun-if-changed={list}");
    }
    let here = PathBuf::from(env::var("CARGO_MANIFEST_DIR").unwrap());
    let out = PathBuf::from(env::var("OUT_DIR").unwrap()).join("search_graph");
    fs::create_dir_all(out.join("global_cache")).unwrap();

    let source = match env::var_os("SEARCH_GRAPH_SRC") {
        Some(path) => PathBuf::from(path),
        None => here.join("../../../shared/docs/src"),
    }
    .join("src/search_graph");
    let wrong = if env::var_os("CARGO_FEATURE_WRONG_READINGS").is_some() {
        wrong_readings::TOPICS
    } else {
        &[]
    };
    for file in FILES {
        let edits = edits::EDITS.iter().chain(wrong.iter().flat_map(|topic| topic.edits));
        fs::write(out.join(file), edited(file, read(&source.join(file)), edits)).unwrap();
    }
    for (from, to) in INSIDE {
        fs::write(out.join(to), read(&here.join("inside").join(from))).unwrap();
    }
    let readings: Vec<_> = wrong.iter().flat_map(|topic| topic.readings).collect();
    let list = format!(
        "/// The wrong readings of the original: number, and what is wrong.\n\
         pub const WRONG_READINGS: &[(u32, &str)] = &{readings:?};\n"
    );
    fs::write(out.with_file_name("wrong_readings.rs"), list).unwrap();
    let module = format!(
        "#[allow(unused_variables)]\n#[path = {:?}]\npub mod search_graph;\n",
        out.join("mod.rs")
    );
    fs::write(out.with_extension("rs"), module).unwrap();
}

fn read(path: &Path) -> String {
    println!("cargo::rerun-if-changed={}", path.display());
    fs::read_to_string(path).unwrap_or_else(|error| {
        stop(&format!(
            "cannot read {}: {error}. Set SEARCH_GRAPH_SRC to the folder that holds \
             src/search_graph of the original.",
            path.display()
        ))
    })
}
