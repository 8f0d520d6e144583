//! A folder in which the program is run.

use std::fs;
use std::io::Write;
use std::os::unix::fs::PermissionsExt;
use std::path::PathBuf;
use std::process::{Command, Output, Stdio};

/// An empty folder of its own for each test.
pub struct Room(pub PathBuf);

impl Room {
    pub fn new(name: &str) -> Room {
        let room = std::env::temp_dir().join(format!("wimmostry-{name}-{}", std::process::id()));
        let _ = fs::remove_dir_all(&room);
        fs::create_dir(&room).unwrap();
        Room(room)
    }

    pub fn command(&self, words: &[&str]) -> Command {
        let mut command = Command::new(env!("CARGO_BIN_EXE_wimmostry"));
        command
            .args(words)
            .current_dir(&self.0)
            .stdin(Stdio::null());
        command
    }

    pub fn run(&self, words: &str) -> Output {
        let words: Vec<&str> = words.split_whitespace().collect();
        self.command(&words).output().unwrap()
    }

    /// Runs these words with this on standard input, of which not all may be taken.
    pub fn fed(&self, words: &str, input: &[u8]) -> Output {
        let words: Vec<&str> = words.split_whitespace().collect();
        let mut child = self
            .command(&words)
            .stdin(Stdio::piped())
            .stdout(Stdio::piped())
            .stderr(Stdio::piped())
            .spawn()
            .unwrap();
        let _ = child.stdin.take().unwrap().write_all(input);
        child.wait_with_output().unwrap()
    }

    /// What it said on standard output, where it was done and said nothing else.
    pub fn done(&self, words: &str) -> String {
        let done = self.run(words);
        assert_eq!(done.status.code(), Some(0), "{words}: {done:?}");
        assert_eq!(done.stderr, b"", "{words}");
        String::from_utf8(done.stdout).unwrap()
    }

    /// The line of a refusal without the library's sentence.
    pub fn refused(&self, words: &str) -> String {
        refused(self.run(words))
    }

    /// What it said on standard error, where it ended with this status and said
    /// nothing else.
    pub fn fails(&self, status: i32, words: &str) -> String {
        let done = self.run(words);
        assert_eq!(done.status.code(), Some(status), "{words}: {done:?}");
        assert_eq!(done.stdout, b"", "{words}");
        String::from_utf8(done.stderr).unwrap()
    }

    pub fn put(&self, name: &str, bytes: impl AsRef<[u8]>) {
        fs::write(self.0.join(name), bytes).unwrap();
        self.chmod(name, 0o600);
    }

    pub fn read(&self, name: &str) -> Vec<u8> {
        fs::read(self.0.join(name)).unwrap()
    }

    pub fn exists(&self, name: &str) -> bool {
        self.0.join(name).symlink_metadata().is_ok()
    }

    pub fn mode(&self, name: &str) -> u32 {
        let found = fs::metadata(self.0.join(name)).unwrap();
        found.permissions().mode() & 0o777
    }

    pub fn chmod(&self, name: &str, mode: u32) {
        fs::set_permissions(self.0.join(name), fs::Permissions::from_mode(mode)).unwrap();
    }

    /// All names in a folder of the room.
    pub fn names(&self, folder: &str) -> Vec<String> {
        let entries = fs::read_dir(self.0.join(folder)).unwrap();
        let name = |entry: std::io::Result<fs::DirEntry>| entry.unwrap().file_name();
        let mut names: Vec<String> = entries.map(|x| name(x).into_string().unwrap()).collect();
        names.sort();
        names
    }
}

/// The line of a refusal without the library's sentence, which is there.
pub fn refused(done: Output) -> String {
    assert_eq!(done.status.code(), Some(1), "{done:?}");
    assert_eq!(done.stdout, b"");
    let line = String::from_utf8(done.stderr).unwrap();
    let (words, sentence) = line.split_once(": ").expect("a sentence");
    assert!(sentence.len() > 10 && sentence.ends_with('\n'), "{line}");
    assert_eq!(line.lines().count(), 1, "{line}");
    words.to_string()
}

impl Drop for Room {
    fn drop(&mut self) {
        let _ = fs::remove_dir_all(&self.0);
    }
}
