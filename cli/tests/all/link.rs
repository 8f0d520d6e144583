//! Links: one command a message.

use crate::room::{refused, Room};
use std::fs::{self, File};
use std::io::Read;

/// The value behind a name in an answer's lines.
fn value<'a>(lines: &'a str, name: &str) -> &'a str {
    let found = lines
        .lines()
        .find_map(|line| line.strip_prefix(name)?.strip_prefix('='));
    found.unwrap_or_else(|| panic!("no {name}= in {lines}"))
}

/// Both ends of a link that is keyed, in left and right; what each says.
fn linked(room: &Room, scheme: &str) -> (String, String) {
    room.done(&format!("link open left {scheme}"));
    let answered = room.done("link answer right left/opening");
    let finished = room.done("link finish left right/reply");
    let said = |lines: &str| value(lines, "say").to_string();
    (said(&finished), said(&answered))
}

#[test]
fn seven_commands_make_a_key() {
    let room = Room::new("link");
    let opening = [4096, 1824, 3888, 7120, 11296, 12976];
    for (scheme, bytes) in opening.into_iter().enumerate() {
        let told = room.done(&format!("link open left {scheme}"));
        assert_eq!(
            told,
            format!("stage=offered\nscheme={scheme}\nsend=left/opening\n")
        );
        assert_eq!(room.read("left/opening").len(), bytes);
        let names = ["lock", "opening", "s", "session", "told"];
        let there = room.names("left");
        assert_eq!(
            there
                .iter()
                .filter(|name| *name != "trace")
                .collect::<Vec<_>>(),
            names
        );
        let answered = room.done("link answer right left/opening");
        let lines: Vec<&str> = answered.lines().collect();
        assert_eq!(lines[..2], ["stage=keyed", &format!("scheme={scheme}")]);
        assert_eq!(lines[2], "send=right/reply");
        let finished = room.done("link finish left right/reply");
        assert_eq!(finished.contains("\nmargin="), scheme != 1, "{finished}");
        let (left, right) = (value(&finished, "say"), value(&answered, "say"));
        assert!(left.len() == 19 && right.len() == 19 && left != right);

        assert_eq!(
            room.done(&format!("link key left {right} left.key")),
            "written=32\n"
        );
        assert_eq!(
            room.done(&format!("link key right {left} right.key")),
            "written=32\n"
        );
        assert_eq!(room.read("left.key"), room.read("right.key"));
        assert_eq!(
            (room.read("left.key").len(), room.mode("left.key")),
            (32, 0o600)
        );
        // it is not the raw key, nor its digest
        assert_ne!(room.read("left.key"), room.read("left/session")[2..34]);
        room.done("hash sha3-256 left/opening hash");
        for name in ["left.key", "right.key", "hash"] {
            room.done(&format!("wipe {name} --quiet"));
        }
        assert_eq!(room.done("link close left"), "stage=idle\nwiped=130\n");
        assert_eq!(room.done("link close right"), "stage=idle\nwiped=130\n");
        assert_eq!(room.names("right"), ["session"]);
        assert_eq!(room.names("left"), ["session", "trace"]);
        assert_eq!(room.read("left/session"), [0; 130]);
    }
    let told = room.done("trace left/trace");
    assert_eq!(told.matches("exchanges=1\n").count(), 6, "{told}");
}

/// What the check and the key are made of, by the words of the help page.
#[test]
fn the_key_is_of_all_that_both_know() {
    let room = Room::new("made");
    room.done("settings write 1 16 box");
    fs::create_dir(room.0.join("left")).unwrap();
    room.chmod("left", 0o700);
    fs::copy(room.0.join("box"), room.0.join("left/settings")).unwrap();
    room.done("link open left");
    // by the other rule the public numbers differ, and so do the keys
    let other = room.done("link answer other left/opening");
    let answered = room.done("link answer right left/opening 16");
    let finished = room.done("link finish left right/reply");
    let (left, right) = (value(&finished, "say"), value(&answered, "say"));
    let line = room.fails(1, &format!("link key left {} key", value(&other, "say")));
    assert_eq!(line, "heard=differs\n");
    room.done(&format!("link key left {right} key"));
    let raw = room.read("left/session")[2..34].to_vec();
    let both = [room.read("left/opening"), room.read("left/reply")].concat();
    let hash = |text: &str, secret: &[u8]| {
        let input = [text.as_bytes(), &[1, 16], secret, &both].concat();
        room.put("input", input);
        room.done("--replace hash sha3-256 input hash");
        room.read("hash")
    };
    assert_eq!(room.read("key"), hash("wimmostry key", &raw));
    room.put("raw", &raw);
    room.done("--replace hash sha3-256 raw digest");
    let check = hash("wimmostry check", &room.read("digest"));
    let digits: String = check.iter().map(|byte| format!("{byte:02x}")).collect();
    assert_eq!(
        left.replace('-', "") + &right.replace('-', ""),
        digits[..32]
    );
    assert_eq!(
        room.names("left"),
        ["lock", "opening", "reply", "session", "settings", "told", "trace"]
    );
    room.done("link close left");
    assert_eq!(room.names("left"), ["session", "settings", "trace"]);
}

#[test]
fn only_what_the_other_said_releases_a_key() {
    let room = Room::new("heard");
    let (left, right) = linked(&room, "newhope");
    // what was typed wrong is told apart from keys that differ
    let own = "wimmostry: HEARD is what this end says: type what the peer said\n";
    let short = "wimmostry: HEARD is not 16 hexadecimal digits, with the marks - or without\n";
    for (wrong, told) in [
        (&left[..], own),
        (&left.to_uppercase(), own),
        (&right[..18], short),
        (&format!("{right}0"), short),
        (&right.replace('-', ":"), short),
        ("g000-0000-0000-0000", short),
        ("none", short),
        ("0000-0000-0000-0000", ""),
    ] {
        let line = room.fails(1, &format!("link key left {wrong} key"));
        assert_eq!(line, format!("{told}heard=differs\n"), "{wrong}");
        assert!(!room.exists("key"), "{wrong}");
    }
    room.done(&format!("link key left {} one", right.to_uppercase()));
    room.done(&format!("link key left {} two", right.replace('-', "")));
    assert_eq!(room.read("one"), room.read("two"));
    // an output like any other: not there yet, and no file of the link
    let line = room.fails(3, &format!("link key left {right} one"));
    assert!(line.contains("one: is there already"), "{line}");
    let session = room.read("left/session");
    let line = room.fails(2, &format!("--replace link key left {right} left/session"));
    assert!(line.contains("are one file"), "{line}");
    assert_eq!(room.read("left/session"), session);
}

#[test]
fn repeats_say_the_same_again() {
    let room = Room::new("repeat");
    let opened = room.done("link open left frodo-challenge");
    let opening = room.read("left/opening");
    let done = room.run("link open left 2");
    assert_eq!(done.stdout, b"send=left/opening\n");
    let line = String::from_utf8(done.stderr).unwrap();
    assert!(
        line.starts_with("refusal=10 place=0 stage=offered expected=idle: "),
        "{line}"
    );
    assert_eq!(room.read("left/opening"), opening);
    assert!(opened.ends_with("send=left/opening\n"));

    let answered = room.done("link answer right left/opening");
    let reply = room.read("right/reply");
    room.put("copy", &opening);
    assert_eq!(room.done("link answer right copy"), answered);
    assert_eq!(room.read("right/reply"), reply);
    let finished = room.done("link finish left right/reply");
    let session = room.read("left/session");
    assert_eq!(room.done("link finish left right/reply"), finished);
    assert_eq!(
        (
            room.read("left/session"),
            room.names("left").contains(&"s".into())
        ),
        (session, false)
    );
    assert_eq!(
        room.done("trace left/trace").matches("exchanges=1").count(),
        1
    );

    // other bytes are 10
    let mut other = opening.clone();
    other[100] ^= 1;
    room.put("copy", &other);
    let line = room.refused("link answer right copy");
    assert_eq!(line, "refusal=10 place=0 stage=keyed expected=idle");
    let mut other = reply.clone();
    other[100] ^= 1;
    room.put("copy", &other);
    let line = room.refused("link finish left copy");
    assert_eq!(line, "refusal=10 place=0 stage=keyed expected=offered");
    let line = room.refused("link finish right copy");
    assert_eq!(line, "refusal=10 place=0 stage=keyed expected=offered");
    for _ in 0..3 {
        room.done("link close left");
    }
    assert_eq!(room.done("link close left"), "stage=idle\nwiped=130\n");
}

/// A damaged reply is refused and leaves all as it is; the good one then finishes.
#[test]
fn a_damaged_message_costs_nothing() {
    let room = Room::new("damaged");
    room.done("link open left 1");
    let opening = room.read("left/opening");
    room.put("cut", &opening[..1823]);
    let line = room.refused("link answer right cut");
    let lengths = "expected=4096,1824,3888,7120,11296,12976";
    assert_eq!(
        line,
        format!("refusal=2 place=0 input=opening length=1823 {lengths}")
    );
    assert!(!room.exists("right"));
    room.put("blank", vec![0; 1824]);
    let line = room.refused("link answer right blank");
    assert_eq!(line, "refusal=17 place=0 input=opening zeros=1792");
    assert_eq!(
        room.done("link status right"),
        "stage=idle\nnext=wimmostry link open right SCHEME\n"
    );
    room.done("link answer right left/opening");
    let (session, s) = (room.read("left/session"), room.read("left/s"));
    room.put("cut", &room.read("right/reply")[..2047]);
    let line = room.refused("link finish left cut");
    assert_eq!(
        line,
        "refusal=2 place=0 input=reply length=2047 expected=2048"
    );
    let mut over = room.read("right/reply");
    over[..2].fill(255);
    room.put("over", over);
    let line = room.refused("link finish left over");
    assert_eq!(
        line,
        "refusal=5 place=0 input=reply value=16383 below=12289"
    );
    assert_eq!(
        (room.read("left/session"), room.read("left/s")),
        (session, s)
    );
    room.done("link finish left right/reply");
}

#[test]
fn out_of_step_is_ten() {
    let room = Room::new("step");
    fs::create_dir(room.0.join("left")).unwrap();
    room.chmod("left", 0o700);
    room.put("message", vec![1; 2048]);
    for (words, stage) in [
        ("link finish left message", "idle expected=offered"),
        ("link key left 0 key", "idle expected=keyed"),
    ] {
        assert_eq!(
            room.refused(words),
            format!("refusal=10 place=0 stage={stage}")
        );
    }
    room.done("link open left 1");
    room.done("link open peer 1");
    for (words, stage) in [
        ("link answer left peer/opening", "offered expected=idle"),
        ("link key left 0 key", "offered expected=keyed"),
    ] {
        assert_eq!(
            room.refused(words),
            format!("refusal=10 place=0 stage={stage}")
        );
    }
    room.put("left/session", [9; 130]);
    for words in [
        "link open left 1",
        "link status left",
        "link key left 0 key",
    ] {
        assert_eq!(
            room.refused(words),
            "refusal=10 place=0 stage=none",
            "{words}"
        );
    }
    room.done("link close left");
    room.put("left/session", [9; 5]);
    assert_eq!(room.done("link close left"), "stage=idle\nwiped=5\n");
    assert_eq!(
        room.done("link status left"),
        "stage=idle\nnext=wimmostry link open left SCHEME\n"
    );
}

#[test]
fn a_folder_is_closed_to_others() {
    let room = Room::new("folder");
    room.done("link open left 1");
    let mode = fs::metadata(room.0.join("left")).unwrap();
    assert_eq!(std::os::unix::fs::MetadataExt::mode(&mode) & 0o777, 0o700);
    let modes = [
        ("session", 0o600),
        ("s", 0o600),
        ("opening", 0o644),
        ("told", 0o600),
    ];
    for (name, mode) in modes {
        assert_eq!(room.mode(&format!("left/{name}")), mode, "{name}");
    }
    room.done("link answer right left/opening");
    assert_eq!(room.mode("right/reply"), 0o644);
    for mode in [0o750, 0o701, 0o720] {
        room.chmod("left", mode);
        let line = room.fails(3, "link finish left right/reply");
        assert!(
            line.contains("left: is a folder that others may enter"),
            "{line}"
        );
    }
    room.chmod("left", 0o700);
    room.chmod("left/s", 0o644);
    let line = room.fails(3, "link finish left right/reply");
    assert!(
        line.contains("left/s: is a secret that others may read"),
        "{line}"
    );
    room.chmod("left/s", 0o600);
    room.done("link finish left right/reply");
    let line = room.fails(3, "link status nowhere");
    assert!(line.contains("nowhere: No such file"), "{line}");
    room.put("file", "");
    assert!(room
        .fails(3, "link open file 1")
        .contains("file: is no folder"));
}

/// Scheme and rule are those of the settings, and a word must not differ.
#[test]
fn settings_of_a_link() {
    let room = Room::new("linkset");
    for side in ["left", "right"] {
        fs::create_dir(room.0.join(side)).unwrap();
        room.chmod(side, 0o700);
    }
    assert!(room
        .fails(2, "link open left")
        .contains("where there is no left/settings"));
    room.done("settings write 4 16 left/settings");
    room.done("settings write 1 14 right/settings");
    assert!(room
        .fails(2, "link open left 1")
        .contains("left/settings has scheme 4, not 1"));
    assert!(room
        .fails(2, "link open left 4 14")
        .contains("left/settings has rule 16, not 14"));
    let told = room.done("link status left");
    assert_eq!(told, "stage=idle\nnext=wimmostry link open left\n");
    assert!(room
        .done("link open left frodo-recommended 16")
        .contains("scheme=4\n"));
    let line = room.refused("link answer right left/opening");
    assert_eq!(
        line,
        "refusal=2 place=0 input=opening length=11296 expected=1824"
    );
    room.put("right/settings", "format=1\n");
    assert_eq!(
        room.refused("link answer right left/opening"),
        "refusal=8 place=0 line=2"
    );
    assert_eq!(
        room.refused("link open other 6"),
        "refusal=1 place=0 scheme=6 expected=0..5"
    );
    assert_eq!(
        room.refused("link open other 1 15"),
        "refusal=12 place=0 rule=15 expected=14,16"
    );
    assert!(!room.exists("other"));
}

/// What a killed run left: of an idle link all is wiped, of a keyed one s; each is
/// told.
#[test]
fn what_a_killed_link_left_is_wiped() {
    let room = Room::new("linkleft");
    room.done("link open left 1");
    room.done("link answer right left/opening");
    let s = room.read("left/s");
    room.done("link finish left right/reply");
    room.put("left/s", &s);
    let mut handle = File::open(room.0.join("left/s")).unwrap();
    let told = room.run("link finish left right/reply");
    assert_eq!(told.status.code(), Some(0));
    let line = "wimmostry: left/s: left by a run that was killed: wiped\n";
    assert_eq!(String::from_utf8(told.stderr).unwrap(), line);
    let mut bytes = vec![];
    handle.read_to_end(&mut bytes).unwrap();
    assert_eq!((bytes, room.exists("left/s")), (vec![0; 4096], false));

    room.done("link close left");
    for name in [
        "s",
        "opening",
        "reply",
        "told",
        ".wimmostry-0123456789abcdef",
    ] {
        room.put(&format!("left/{name}"), "left");
    }
    let told = room.run("link open left 1");
    assert_eq!(told.status.code(), Some(0));
    let lines = String::from_utf8(told.stderr).unwrap();
    assert_eq!(
        lines
            .matches(": left by a run that was killed: wiped\n")
            .count(),
        5,
        "{lines}"
    );
    // status looks and changes nothing
    room.put("left/.wimmostry-0123456789abcdef", "left");
    room.done("link status left");
    assert!(room.exists("left/.wimmostry-0123456789abcdef"));
}

/// A trace that is none stays as it is, and the link is keyed all the same.
#[test]
fn a_trace_that_is_none_is_left() {
    let room = Room::new("linktrace");
    room.done("link open left 2");
    room.done("link answer right left/opening");
    room.put("left/trace", "my notes\n");
    let done = room.run("link finish left right/reply");
    assert_eq!(done.status.code(), Some(0));
    assert!(String::from_utf8(done.stderr)
        .unwrap()
        .contains("left/trace: is no trace"));
    assert_eq!(room.read("left/trace"), b"my notes\n");
    let full = "scheme=2\nslack=1\n".repeat(2048);
    room.done("link close left");
    room.put("left/trace", &full);
    room.done("link close right");
    linked(&room, "2");
    assert_eq!(room.read("left/trace")[..17 * 2047], full.as_bytes()[17..]);
    assert!(room.done("trace left/trace").contains("exchanges=2048\n"));
}

/// Messages by standard input; a file of the folder is no message that came.
#[test]
fn messages_come_from_elsewhere() {
    let room = Room::new("elsewhere");
    room.done("link open left 1");
    let opening = room.read("left/opening");
    let done = room.fed("link answer right -", &opening);
    assert_eq!(done.status.code(), Some(0), "{done:?}");
    fs::copy(room.0.join("right/reply"), room.0.join("left/reply")).unwrap();
    let line = room.fails(2, "link finish left left/reply");
    let told = "wimmostry: the output reply is the input REPLY: 'left/reply'; \
                keep what came outside the link's folder\n";
    assert_eq!(line, told);
    let done = room.fed("link finish left -", &room.read("right/reply"));
    assert_eq!(done.status.code(), Some(0), "{done:?}");
    assert_eq!(
        refused(room.fed("link finish left -", b"x")),
        "refusal=10 place=0 stage=keyed expected=offered"
    );
}
