//! Finds libyadzvego.a: in the folder that YADZVEGO_LIB names, in ../lib, where the bundle has it, or in
//! ../target/staticlib, where `./bundle` writes it.

use std::env;
use std::path::{Path, PathBuf};

fn main() {
    println!("cargo::rerun-if-env-changed=YADZVEGO_LIB");
    let manifest = Path::new(env!("CARGO_MANIFEST_DIR"));
    let bundled = manifest.join("../lib");
    let beside = if bundled.join("libyadzvego.a").is_file() {
        bundled
    } else {
        manifest.join("../target/staticlib")
    };
    let folder = env::var_os("YADZVEGO_LIB").map_or(beside, PathBuf::from);
    let archive = folder.join("libyadzvego.a");
    println!("cargo::rerun-if-changed={}", archive.display());
    match (archive.is_file(), folder.canonicalize()) {
        (true, Ok(folder)) => {
            println!("cargo::rustc-link-search=native={}", folder.display());
            println!("cargo::rustc-link-lib=static=yadzvego");
        }
        _ => println!(
            "cargo::error=no {}: run `./bundle`, or set YADZVEGO_LIB to the folder of the archive",
            archive.display()
        ),
    }
}
