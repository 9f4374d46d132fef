//! With the feature `gateway`: links libfirst_look.a, from the folder that FIRST_LOOK_FOLDER names.

use std::env;
use std::path::Path;

const LIBRARY: &str = "first_look";
const VARIABLE: &str = "FIRST_LOOK_FOLDER";

fn main() {
    println!("cargo::rerun-if-changed=build.rs");
    if env::var_os("CARGO_FEATURE_GATEWAY").is_none() {
        return;
    }
    println!("cargo::rerun-if-env-changed={VARIABLE}");
    match env::var(VARIABLE) {
        Ok(folder) => link(&folder),
        Err(_) => println!("cargo::error={VARIABLE} must name the folder of lib{LIBRARY}.a"),
    }
}

fn link(folder: &str) {
    let file = Path::new(folder).join(format!("lib{LIBRARY}.a"));
    println!("cargo::rerun-if-changed={}", file.display());
    println!("cargo::rustc-link-search=native={folder}");
    println!("cargo::rustc-link-lib=static={LIBRARY}");
}
