// Links the library that `rt lib` makes of crates/seat_c, or one in the folder that SEAT_LIBRARY names.
use std::env;
use std::path::PathBuf;

fn main() {
    let folder = match env::var_os("SEAT_LIBRARY") {
        Some(folder) => PathBuf::from(folder),
        None => PathBuf::from(env!("CARGO_MANIFEST_DIR")).join("../../crates/seat_c/out"),
    };
    println!("cargo:rerun-if-env-changed=SEAT_LIBRARY");
    println!(
        "cargo:rerun-if-changed={}",
        folder.join("libseat_c.a").display()
    );
    println!("cargo:rustc-link-search=native={}", folder.display());
    println!("cargo:rustc-link-lib=static=seat_c");
}
