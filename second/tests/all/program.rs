//! The binary: its words, what it prints and how it ends.

use std::io::Write;
use std::process::{Command, Output, Stdio};

pub fn run(words: &[&str], input: &[u8]) -> Output {
    let mut child = Command::new(env!("CARGO_BIN_EXE_second"))
        .args(words)
        .stdin(Stdio::piped())
        .stdout(Stdio::piped())
        .stderr(Stdio::piped())
        .spawn()
        .unwrap();
    // A program that reads nothing may have ended already.
    let _ = child.stdin.take().unwrap().write_all(input);
    child.wait_with_output().unwrap()
}

#[test]
fn line() {
    let output = run(&["line"], b"scheme=4\ncoin=0\nv=1023\nw=1535\n");
    assert!(output.status.success());
    assert_eq!(output.stdout, b"hint=0\nkey=0\npeer=0\n");
    let output = run(&["line"], b"");
    assert!(output.status.success());
    assert_eq!(output.stdout, b"refusal=8\n");
}

#[test]
fn trace() {
    let output = run(&["trace"], b"scheme=2\nslack=7\n");
    assert!(output.status.success());
    assert_eq!(output.stdout, b"scheme=2\nexchanges=1\nsum=7\nlargest=7\n");
    let output = run(&["trace"], b"scheme=2\n");
    assert!(output.status.success());
    assert_eq!(output.stdout, b"refusal=8\n");
}

#[test]
fn cards() {
    let output = run(&["cards"], b"");
    assert!(output.status.success());
    let expected: String = second::cards::cards()
        .iter()
        .map(|card| format!("{card}\n"))
        .collect();
    assert_eq!(output.stdout, expected.as_bytes());
}

#[test]
fn margins() {
    let output = run(&["margins"], b"");
    assert!(output.status.success());
    let expected: String = second::margins::margins()
        .iter()
        .map(|line| format!("{line}\n"))
        .collect();
    assert_eq!(output.stdout, expected.as_bytes());
}

#[test]
fn help_for_a_wrong_word() {
    for words in [
        &[][..],
        &["lines"],
        &["line", "cards"],
        &["trace", "x"],
        &["settings", "read"],
        &["margins", "at"],
        &["vectors", ""],
        &[""],
    ] {
        let output = run(words, b"");
        assert_eq!(output.status.code(), Some(2));
        assert!(output.stdout.is_empty());
        let help = String::from_utf8(output.stderr).unwrap();
        for word in ["line", "trace", "settings", "cards", "margins", "vectors"] {
            assert!(help.contains(&format!("second {word} ")));
        }
    }
}
