//! Finds the proved library: librillmoth.a in the folder that RILLMOTH_LIBRARY names, by its whole path, else where `./library` builds it.

use std::env;
use std::path::PathBuf;

const NAME: &str = "librillmoth.a";

fn main() {
    println!("cargo:rerun-if-env-changed=RILLMOTH_LIBRARY");
    let folder = match env::var_os("RILLMOTH_LIBRARY") {
        Some(folder) => PathBuf::from(folder),
        None => PathBuf::from(env::var_os("CARGO_MANIFEST_DIR").unwrap_or_default()).join("../built/library"),
    };
    let library = folder.join(NAME);
    println!("cargo:rerun-if-changed={}", library.display());
    if !library.is_file() {
        eprintln!("{NAME} is not in {}.", folder.display());
        eprintln!("Build it with ./library, or set RILLMOTH_LIBRARY to the folder that holds it.");
        std::process::exit(1);
    }
    println!("cargo:rustc-link-search=native={}", folder.display());
    println!("cargo:rustc-link-lib=static=rillmoth");
}
