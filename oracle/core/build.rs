//! With the feature `wrong_readings`: applies wrong_readings.rs and wrong_readings/ to files of this
//! crate and writes the result to OUT_DIR. Without it there is nothing to do.

use std::path::PathBuf;
use std::{env, fs};

#[path = "../original/apply.rs"]
mod apply;
mod wrong_readings;

use apply::{Edit, edited, stop};

fn main() {
    for file in ["build.rs", "wrong_readings.rs", "wrong_readings", "../original/apply.rs", "src"] {
        println!("cargo::rerun-if-changed={file}");
    }
    if env::var_os("CARGO_FEATURE_WRONG_READINGS").is_none() {
        return;
    }
    let here = PathBuf::from(env::var("CARGO_MANIFEST_DIR").unwrap());
    let out = PathBuf::from(env::var("OUT_DIR").unwrap());
    let mut modules = String::new();
    for (file, public) in wrong_readings::FILES {
        let text = fs::read_to_string(here.join("src").join(file))
            .unwrap_or_else(|error| stop(&format!("cannot read src/{file}: {error}")));
        let edits = wrong_readings::EDITS.iter().chain(wrong_readings::passes::EDITS);
        let text = edited(file, text, edits);
        fs::write(out.join(file), text).unwrap();
        let name = file.trim_end_matches(".rs");
        modules += &format!("#[path = {:?}]\n{public} mod {name};\n", out.join(file));
    }
    modules += &format!(
        "/// The wrong readings of this crate: number, and what is wrong.\n\
         pub const CORE_READINGS: &[(u32, &str)] = &{:?};\n",
        [wrong_readings::READINGS, wrong_readings::passes::READINGS].concat()
    );
    fs::write(out.join("modules.rs"), modules).unwrap();
}
