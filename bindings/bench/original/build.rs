// The file is named by a variable, and not kept here: its author's copy is the one to measure.
use std::env;
use std::path::PathBuf;

fn main() {
    println!("cargo:rerun-if-env-changed=ORIGINAL");
    let named = env::var_os("ORIGINAL")
        .map(PathBuf::from)
        .expect("ORIGINAL names the folder of wezterm-input-types 0.1.0, or its src/lib.rs");
    let file = if named.is_dir() {
        named.join("src/lib.rs")
    } else {
        named
    };
    let file = file
        .canonicalize()
        .unwrap_or_else(|error| panic!("{}: {error}", file.display()));
    println!("cargo:rerun-if-changed={}", file.display());
    println!("cargo:rustc-env=ORIGINAL_FILE={}", file.display());
}
