//! Says where libchronicle_map_c.a is: in the folder that CHRONICLE_MAP_LIB names, or where `make lib` puts it.
//! Before that it compares the version in Cargo.toml, which Cargo wants there, with that of the file VERSION.
use std::env;
use std::fs;
use std::path::{Path, PathBuf};
use std::process;

fn main() {
    let own = PathBuf::from(env::var_os("CARGO_MANIFEST_DIR").expect("cargo sets it"));
    compare_version(&own.join("../../VERSION"));
    let folder = match env::var_os("CHRONICLE_MAP_LIB") {
        Some(folder) => PathBuf::from(folder),
        None => own.join("../../target/staticlib"),
    };
    let archive = folder.join("libchronicle_map_c.a");
    println!("cargo:rerun-if-env-changed=CHRONICLE_MAP_LIB");
    println!("cargo:rerun-if-changed={}", archive.display());
    if !archive.exists() {
        println!(
            "cargo:warning=no {}; `make lib` makes it",
            archive.display()
        );
    }
    println!("cargo:rustc-link-search=native={}", folder.display());
    println!("cargo:rustc-link-lib=static=chronicle_map_c");
}

/// Stops where the file is there and has another version than Cargo.toml. Outside the repository it is not there.
fn compare_version(file: &Path) {
    let cargo = env::var("CARGO_PKG_VERSION").expect("cargo sets it");
    if let Ok(text) = fs::read_to_string(file) {
        println!("cargo:rerun-if-changed={}", file.display());
        if text.trim() != cargo {
            eprintln!(
                "bindings/rust/Cargo.toml has version {cargo}, and the file VERSION has {}: make them the same",
                text.trim()
            );
            process::exit(1);
        }
    }
}
