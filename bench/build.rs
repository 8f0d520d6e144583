//! Links the archive that `native kernels` writes, in the folder that WIMMOSTRY_LIB_DIR
//! names as for the library's own, which is linked by its package. Where Botan's
//! headers are found, its NewHope is built in.

use std::env::var;
use std::path::Path;
use std::process::Command;

fn main() {
    let root = var("CARGO_MANIFEST_DIR").expect("cargo sets it");
    let native = var("WIMMOSTRY_LIB_DIR").unwrap_or(format!("{root}/../target/native"));
    println!("cargo:rerun-if-env-changed=WIMMOSTRY_LIB_DIR");
    println!("cargo:rustc-link-search=native={native}");
    println!("cargo:rustc-link-lib=static=kernels");
    println!("cargo:rerun-if-changed={native}/libkernels.a");
    println!("cargo:rerun-if-changed=src/botan.cpp");
    println!("cargo:rustc-check-cfg=cfg(botan)");
    if let Some(include) = botan() {
        shim(&include);
    }
}

/// The folder of Botan's headers, as pkg-config knows it or where it mostly is.
fn botan() -> Option<String> {
    let known = Command::new("pkg-config").args(["--variable=includedir", "botan-2"]).output();
    let known = known.map(|out| String::from_utf8_lossy(&out.stdout).trim().to_string()).unwrap_or_default();
    let folders = [known, "/usr/include/botan-2".to_string()];
    folders.into_iter().find(|folder| Path::new(&format!("{folder}/botan/newhope.h")).exists())
}

/// Compiles the shim; without a compiler the rows of Botan are left out.
fn shim(include: &str) {
    let out = var("OUT_DIR").expect("cargo sets it");
    let object = format!("{out}/botan.o");
    let done = |tool: &str, arguments: &[&str]| Command::new(tool).args(arguments).status().is_ok_and(|status| status.success());
    let built = done("g++", &["-std=c++17", "-O2", "-Wall", "-Wextra", "-I", include, "-c", "src/botan.cpp", "-o", &object])
        && done("ar", &["crs", &format!("{out}/libbotan_shim.a"), &object]);
    if built {
        println!("cargo:rustc-cfg=botan");
        println!("cargo:rustc-link-search=native={out}");
        println!("cargo:rustc-link-lib=static=botan_shim");
        println!("cargo:rustc-link-lib=dylib=botan-2");
        println!("cargo:rustc-link-lib=dylib=stdc++");
    }
}
