//! The rule for files: an output is a file that is not there yet, what is removed is
//! overwritten, and no two words are one file that may not be.

use crate::room::Room;
use std::fs::{self, File};
use std::io::Read;
use std::os::unix::process::CommandExt;
use std::process::Command;

/// With one byte lost on the way both ends are refused, and neither has a key file
/// that could be taken for one.
#[test]
fn a_byte_lost_on_the_way_leaves_no_key() {
    let room = Room::new("lost");
    for what in ["seed", "s", "e", "s1", "e1", "e2", "coins"] {
        room.done(&format!("draw 1 {what} {what}"));
    }
    room.done("grow 14 seed a");
    room.done("offer 1 a s e seed opening");
    let opening = room.read("opening");
    room.put("cut", &opening[..1823]);
    let line = room.refused("reply 1 cut a s1 e1 e2 coins reply right right.digest");
    assert_eq!(
        line,
        "refusal=2 place=0 input=opening length=1823 expected=1824"
    );
    let line = room.refused("finish 1 none s left left.digest");
    assert_eq!(line, "refusal=2 place=0 input=reply length=0 expected=2048");
    for name in ["reply", "right", "right.digest", "left", "left.digest"] {
        assert!(!room.exists(name), "{name}");
    }
}

/// Neither settings, a session, a key nor anything else is replaced unasked, and
/// nothing is read before that is told.
#[test]
fn an_output_is_not_there_yet() {
    let room = Room::new("there");
    room.done("settings write 1 14 box");
    room.done("draw 1 seed seed");
    let settings = room.read("box");
    let line = room.fails(2, "grow settings=box seed box");
    assert_eq!(
        line,
        "wimmostry: the output OUT is the input settings=: 'box'\n"
    );
    for (status, words) in [
        (3, "draw 1 s box"),
        (3, "draw 9 s box"),
        (3, "grow 14 seed box"),
        (3, "grow 14 missing box"),
        (3, "hash sha3-256 missing box"),
        (2, "--replace grow settings=box seed box"),
        (2, "--replace hash sha3-256 box box"),
        (2, "draw newhop s box"),
    ] {
        let line = room.fails(status, words);
        assert_eq!(line.lines().count(), 1, "{words}: {line}");
        assert_eq!(room.read("box"), settings, "{words}");
    }
    let line = room.fails(3, "draw 1 s box");
    assert!(
        line.starts_with("wimmostry: box: is there already"),
        "{line}"
    );
    room.done("--replace draw 1 s box");
    assert_eq!((room.read("box").len(), room.mode("box")), (4096, 0o600));
}

/// What `--replace` replaces is overwritten, and so is what a refusal removes.
#[test]
fn what_is_replaced_is_overwritten() {
    let room = Room::new("over");
    for (words, status) in [("draw 1 s old", 0), ("draw 9 s old", 1)] {
        room.put("old", "an old key");
        let mut handle = File::open(room.0.join("old")).unwrap();
        let done = room.run(&format!("--replace {words}"));
        assert_eq!(done.status.code(), Some(status), "{done:?}");
        let mut left = vec![];
        handle.read_to_end(&mut left).unwrap();
        assert_eq!(left, [0; 10], "{words}");
        assert_eq!(room.exists("old"), status == 0);
    }
    // under another name it stays
    room.put("old", "an old key");
    room.put("kept", "");
    fs::remove_file(room.0.join("kept")).unwrap();
    fs::hard_link(room.0.join("old"), room.0.join("kept")).unwrap();
    room.done("--replace draw 1 s old");
    assert_eq!(room.read("kept"), b"an old key");
}

/// A word that begins with a dash is an option or wrong; `--` ends the options.
#[test]
fn dashes() {
    let room = Room::new("dash");
    let page = room.done("help draw");
    assert_eq!(room.done("draw 1 s --help"), page);
    assert_eq!(room.done("-h draw"), page);
    let line = room.fails(2, "draw 1 s --repalce x");
    assert!(
        line.contains("'--repalce' (did you mean --replace?)"),
        "{line}"
    );
    let line = room.fails(2, "draw 1 s -x");
    assert!(line.contains("there is no option '-x'"), "{line}");
    assert_eq!(room.names("."), Vec::<String>::new());
    room.done("draw 1 s -- --help");
    assert_eq!(room.names("."), ["--help"]);
    room.done("wipe ./--help");
    let line = room.fails(2, "draw 1 s x --margins");
    assert!(line.contains("--margins is an option of trace"), "{line}");
}

/// One file is not two secrets, by whatever name.
#[test]
fn two_secrets_are_two_files() {
    let room = Room::new("secrets");
    for what in ["s", "e", "seed", "a"] {
        room.done(&format!("draw 1 {what} {what}"));
    }
    fs::hard_link(room.0.join("s"), room.0.join("hard")).unwrap();
    std::os::unix::fs::symlink("s", room.0.join("soft")).unwrap();
    for other in ["s", "hard", "soft", "./s"] {
        let line = room.fails(2, &format!("offer 1 a s {other} seed opening"));
        assert!(
            line.starts_with("wimmostry: S and E are one file"),
            "{line}"
        );
    }
    // nor is a secret lent as a public number
    let line = room.fails(2, "offer 1 s s e seed opening");
    assert!(
        line.starts_with("wimmostry: A and S are one file"),
        "{line}"
    );
    assert!(!room.exists("opening"));
}

/// A secret that others may read is refused, also through standard input.
#[test]
fn a_secret_is_closed_to_others() {
    let room = Room::new("closed");
    for what in ["s", "e", "seed", "a"] {
        room.done(&format!("draw 1 {what} {what}"));
    }
    for mode in [0o640, 0o604, 0o620] {
        room.chmod("s", mode);
        let line = room.fails(3, "offer 1 a s e seed opening");
        let told = format!("wimmostry: s: is a secret that others may read (mode {mode:o})");
        assert!(line.starts_with(&told), "{line}");
        let words = ["offer", "1", "a", "-", "e", "seed", "opening"];
        let secret = File::open(room.0.join("s")).unwrap();
        let done = room.command(&words).stdin(secret).output().unwrap();
        assert_eq!(done.status.code(), Some(3), "{done:?}");
    }
    room.done("--any-mode offer 1 a s e seed opening");
    let taken = room.fed("offer 1 a - e seed opening2", &room.read("s"));
    assert_eq!(
        taken.status.code(),
        Some(0),
        "a pipe has no mode: {taken:?}"
    );
    room.done("session link offer 1 a e s seed opening3 --any-mode");
    room.chmod("link", 0o644);
    let line = room.fails(3, "session link finish 1 none e key digest");
    assert!(line.contains("link: is a secret"), "{line}");
    assert_eq!(room.done("session link close"), "stage=idle\n");
    assert_eq!(room.mode("link"), 0o600);
}

/// What a killed run left is wiped and told by the next in that folder, also where it
/// is a second name of a session.
#[test]
fn what_a_killed_run_left_is_wiped() {
    let room = Room::new("killed");
    for what in ["s", "e", "seed", "a"] {
        room.done(&format!("draw 1 {what} {what}"));
    }
    room.done("session link offer 1 a s e seed opening");
    let left = ".wimmostry-0011223344556677";
    fs::hard_link(room.0.join("link"), room.0.join(left)).unwrap();
    let done = room.run("session link close");
    let line = format!("wimmostry: ./{left}: left by a run that was killed: wiped\n");
    assert_eq!(String::from_utf8(done.stderr).unwrap(), line);
    assert_eq!((done.status.code(), room.exists(left)), (Some(0), false));
    assert_eq!(room.read("link"), [0; 130]);

    room.put(left, "a key");
    let mut handle = File::open(room.0.join(left)).unwrap();
    let done = room.run("draw 1 coins coins");
    assert_eq!(String::from_utf8(done.stderr).unwrap(), line);
    let mut bytes = vec![];
    handle.read_to_end(&mut bytes).unwrap();
    assert_eq!((bytes, room.exists(left)), (vec![0; 5], false));
}

mod raw {
    #[repr(C)]
    pub struct Limit {
        pub now: u64,
        pub most: u64,
    }
    extern "C" {
        pub fn setrlimit(resource: i32, limit: *const Limit) -> i32;
    }
    pub const FILE_SIZE: i32 = 1;
    pub const CORE: i32 = 4;
}

/// A limit of a command, where it may be set.
fn limited(command: &mut Command, resource: i32, limit: u64) {
    let set = move || {
        let limit = raw::Limit {
            now: limit,
            most: limit,
        };
        // SAFETY: the limit is of this frame.
        unsafe { raw::setrlimit(resource, &limit) };
        Ok(())
    };
    // SAFETY: it makes one call, which a child may make.
    unsafe { command.pre_exec(set) };
}

/// A call that fails leaves no temporary file, and overwrites what it wrote; here the
/// message is larger than any file may be.
#[test]
fn a_call_that_fails_leaves_nothing() {
    let room = Room::new("full");
    for what in ["s", "e", "seed", "a", "s1", "e1", "e2", "coins"] {
        room.done(&format!("draw 1 {what} {what}"));
    }
    room.done("offer 1 a s e seed opening");
    let before = room.names(".");
    let words = "reply 1 opening a s1 e1 e2 coins reply key digest";
    let words: Vec<&str> = words.split(' ').collect();
    let mut command = room.command(&words);
    limited(&mut command, raw::FILE_SIZE, 100);
    let done = command.output().unwrap();
    assert_eq!(done.status.code(), Some(3), "{done:?}");
    assert_eq!(room.names("."), before);
}

/// No core dump: the limit is 0. And memory is locked, where it may be.
#[test]
fn no_core_dump() {
    let room = Room::new("core");
    // it waits for standard input; a limit that is 0 before says nothing
    let mut command = room.command(&["hash", "sha3-256", "-", "out"]);
    limited(&mut command, raw::CORE, u64::MAX);
    let mut child = command
        .stdin(std::process::Stdio::piped())
        .stdout(std::process::Stdio::null())
        .spawn()
        .unwrap();
    let limits = format!("/proc/{}/limits", child.id());
    let limit = |name: &str| {
        let text = fs::read_to_string(&limits).unwrap();
        let line = text.lines().find_map(|line| line.strip_prefix(name));
        line.unwrap().split_whitespace().next().unwrap().to_string()
    };
    let dumps = || limit("Max core file size");
    let until = std::time::Instant::now() + std::time::Duration::from_secs(20);
    while dumps() != "0" && std::time::Instant::now() < until {
        std::thread::sleep(std::time::Duration::from_millis(5));
    }
    assert_eq!(dumps(), "0");
    let locked = || {
        let text = fs::read_to_string(format!("/proc/{}/status", child.id())).unwrap();
        let line = text.lines().find_map(|line| line.strip_prefix("VmLck:"));
        line.unwrap().split_whitespace().next().unwrap() != "0"
    };
    while !locked() && std::time::Instant::now() < until {
        std::thread::sleep(std::time::Duration::from_millis(5));
    }
    assert!(locked() || limit("Max locked memory") == "0");
    drop(child.stdin.take());
    assert!(child.wait().unwrap().success());
}
