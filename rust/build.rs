//! Links the proved static library, which `rt lib` builds in `crates/zimgurav`. `./install`, `./soak` and
//! the gate put it below `target/staticlib`.

use std::env;
use std::path::Path;

fn main() {
    let package = env::var_os("CARGO_MANIFEST_DIR").expect("Cargo tells the package's folder");
    let folder = Path::new(&package).join("../target/staticlib");
    let archive = folder.join("libzimgurav.a");
    println!("cargo::rerun-if-changed={}", archive.display());
    println!("cargo::rustc-link-search=native={}", folder.display());
    println!("cargo::rustc-link-lib=static=zimgurav");
}
