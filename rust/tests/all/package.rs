//! The package as it is built: from an archive of its own version alone, and without a
//! panic in its sources.

use std::fs;
use std::path::{Path, PathBuf};
use std::process::Command;

const ROOT: &str = env!("CARGO_MANIFEST_DIR");

/// The archive that these tests are linked with.
fn archive() -> Vec<u8> {
    let folder = match option_env!("WIMMOSTRY_LIB_DIR") {
        Some(folder) => PathBuf::from(folder),
        None => Path::new(ROOT).join("../target/native"),
    };
    fs::read(folder.join("libwimmostry.a")).expect("it is linked")
}

/// What cargo says where the package is built over an archive.
fn built(folder: &Path, archive: &[u8]) -> Result<(), String> {
    fs::create_dir_all(folder).expect("a folder for tests");
    fs::write(folder.join("libwimmostry.a"), archive).expect("a folder for tests");
    let done = Command::new(env!("CARGO"))
        .args(["check", "--offline", "--quiet", "--manifest-path"])
        .arg(Path::new(ROOT).join("Cargo.toml"))
        .env("WIMMOSTRY_LIB_DIR", folder)
        .env("CARGO_TARGET_DIR", folder.join("target"))
        .output()
        .expect("cargo runs these tests");
    match done.status.success() {
        true => Ok(()),
        false => Err(String::from_utf8_lossy(&done.stderr).into_owned()),
    }
}

#[test]
fn another_version_is_refused() {
    let folder = Path::new(env!("CARGO_TARGET_TMPDIR")).join("another_version");
    let own = format!(
        "wim_version_{}\0",
        env!("CARGO_PKG_VERSION").replace('.', "_")
    );
    let mut other = archive();
    assert_eq!(built(&folder, &other), Ok(()));
    let at = other.windows(own.len()).position(|w| w == own.as_bytes());
    let digit = at.expect("its version") + "wim_version_".len();
    other[digit] = b'9';
    let said = built(&folder, &other).expect_err("another version");
    let expected = format!("this package is for {}", env!("CARGO_PKG_VERSION"));
    assert!(said.contains(&expected) && said.contains("is 9."), "{said}");
}

/// Lines of the sources that are neither comments nor tests.
fn lines() -> Vec<String> {
    let folders = ["src", "src/raw"].map(|name| Path::new(ROOT).join(name));
    let files = folders
        .iter()
        .flat_map(|f| fs::read_dir(f).expect("sources"));
    let files = files.map(|file| file.expect("sources").path());
    let texts = files.filter_map(|file| fs::read_to_string(file).ok());
    let code = |text: String| text.split("#[cfg(test)]").next().map(str::to_owned);
    let lines = texts.filter_map(code).flat_map(|text| {
        let lines = text.lines().map(|line| line.trim().to_owned());
        lines
            .filter(|line| !line.starts_with("//"))
            .collect::<Vec<_>>()
    });
    lines.collect()
}

/// No word that panics stands in the package, but for one on lengths that are constants.
#[test]
fn nothing_panics() {
    let lines = lines();
    assert!(lines.len() > 1000, "{} lines were read", lines.len());
    let words = ["panic!", "unreachable!", "todo!", ".unwrap()", ".expect("];
    let found = lines.iter().filter(|line| {
        let word = words.iter().any(|word| line.contains(word));
        word && !line.contains("a record has a session")
    });
    assert_eq!(found.collect::<Vec<_>>(), Vec::<&String>::new());
}

/// All calls but session_close, which has no place, go through one unsafe block, with one
/// argument for all of them. The others are for what is no call: two scrubs, wipe, same,
/// three texts and a table.
#[test]
fn one_unsafe_block_for_all_calls() {
    let lines = lines();
    let calls = lines
        .iter()
        .filter(|l| l.contains("ask!(wim_") || l.contains("call!("));
    assert_eq!(calls.count(), 30);
    let blocks = lines.iter().filter(|line| line.contains("unsafe {"));
    assert_eq!(blocks.count(), 10);
}

/// As long as there is no licence, README says so.
#[test]
fn licence() {
    let root = Path::new(ROOT).join("..");
    let names = fs::read_dir(&root).expect("the repository");
    let names = names.map(|name| {
        name.expect("a name")
            .file_name()
            .to_string_lossy()
            .to_uppercase()
    });
    let given = names
        .into_iter()
        .any(|n| n.starts_with("LICEN") || n.starts_with("COPYING"));
    let readme = fs::read_to_string(root.join("README.md")).expect("README");
    assert_ne!(given, readme.contains("No licence has been given yet."));
}

/// The oldest compiler is told: the one from which on `core` has `Error`.
#[test]
fn oldest_compiler() {
    assert_eq!(env!("CARGO_PKG_RUST_VERSION"), "1.81");
}
