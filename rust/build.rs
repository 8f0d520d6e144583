//! Links the archive: of the folder that WIMMOSTRY_LIB_DIR names, or else the one that
//! `./native wimmostry` writes, or else the installed one that pkg-config knows. It
//! must be of this package's version, which one of its symbols has in its name.

use std::path::{Path, PathBuf};
use std::process::{exit, Command};

const ARCHIVE: &str = "libwimmostry.a";

fn main() {
    for variable in ["WIMMOSTRY_LIB_DIR", "PKG_CONFIG", "PKG_CONFIG_PATH"] {
        println!("cargo:rerun-if-env-changed={variable}");
    }
    println!("cargo:rustc-check-cfg=cfg(wimmostry_unscrubbed)");
    let folder = match std::env::var_os("WIMMOSTRY_LIB_DIR") {
        Some(folder) => PathBuf::from(folder),
        None => found(),
    };
    let archive = folder.join(ARCHIVE);
    let Ok(bytes) = std::fs::read(&archive) else {
        eprintln!("wimmostry: there is no archive {}.", archive.display());
        eprintln!("Run ./native wimmostry at the root of the repository, or set WIMMOSTRY_LIB_DIR");
        eprintln!(
            "to the folder of an installed one (./install PREFIX puts it into PREFIX/lib), or"
        );
        eprintln!("PKG_CONFIG_PATH to that of its pkg-config file.");
        exit(1);
    };
    let own = env!("CARGO_PKG_VERSION");
    let version = version(&bytes);
    if version.as_deref() != Some(own) {
        let version = version.unwrap_or("a version that says nothing of itself".into());
        eprintln!("wimmostry: {} is {version}, and", archive.display());
        eprintln!("this package is for {own}: docs/CHANGES.md says what a caller must change.");
        exit(1);
    }
    println!("cargo:rustc-link-search=native={}", folder.display());
    println!("cargo:rustc-link-lib=static=wimmostry");
    println!("cargo:rerun-if-changed={}", archive.display());
}

/// The repository's own folder where it has an archive, else the one that pkg-config
/// knows.
fn found() -> PathBuf {
    let root = std::env::var_os("CARGO_MANIFEST_DIR").expect("cargo sets it");
    let own = Path::new(&root).join("../target/native");
    // the command line has this package one folder further down
    let below = Path::new(&root).join("../../target/native");
    for folder in [&own, &below] {
        if folder.join(ARCHIVE).exists() {
            return folder.clone();
        }
    }
    let program = std::env::var_os("PKG_CONFIG").unwrap_or("pkg-config".into());
    let asked = Command::new(program)
        .args(["--variable=libdir", "wimmostry"])
        .output();
    match asked {
        Ok(told) if told.status.success() => {
            PathBuf::from(String::from_utf8_lossy(&told.stdout).trim())
        }
        _ => own,
    }
}

/// The version in the name of the archive's symbol `wim_version_..`, which stands in
/// its table of symbols with a zero behind it.
fn version(archive: &[u8]) -> Option<String> {
    const NAME: &[u8] = b"wim_version_";
    let at = archive.windows(NAME.len()).position(|w| w == NAME)?;
    let digits = archive[at + NAME.len()..].split(|&byte| byte == 0).next()?;
    let digits = std::str::from_utf8(digits).ok()?;
    Some(digits.replace('_', "."))
}
