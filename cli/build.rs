//! Links the archive that `./native trace` writes; the library's own is linked
//! by its package.

use std::path::Path;
use std::process::exit;

fn main() {
    let root = std::env::var_os("CARGO_MANIFEST_DIR").expect("cargo sets it");
    let folder = Path::new(&root).join("../target/native");
    let archive = folder.join("libtrace.a");
    if !archive.exists() {
        eprintln!("wimmostry: there is no archive {}.", archive.display());
        eprintln!("Run ./native trace at the root of the repository.");
        exit(1);
    }
    println!("cargo:rustc-link-search=native={}", folder.display());
    println!("cargo:rustc-link-lib=static=trace");
    println!("cargo:rerun-if-changed={}", archive.display());
}
