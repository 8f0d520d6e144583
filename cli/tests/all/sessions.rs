//! Sessions in files: a link walked by hand.

use crate::room::Room;
use std::fs;

/// What two ends need for NewHope.
fn drawn(room: &Room) {
    for what in ["s", "e", "seed", "s1", "e1", "e2", "coins"] {
        room.done(&format!("draw 1 {what} {what}"));
    }
    room.done("grow 14 seed a");
}

const OFFER: &str = "session left offer 1 a s e seed opening";
const REPLY: &str = "session right reply 1 opening a s1 e1 e2 coins reply key digest";
const FINISH: &str = "session left finish 1 reply s key2 digest2";

#[test]
fn a_link_is_walked_by_hand() {
    let room = Room::new("session");
    drawn(&room);

    // nothing is made by what is refused, or by what begins no link
    for words in ["session left show", "session left close", FINISH] {
        let line = room.fails(3, words);
        assert!(line.contains("left: No such file"), "{words}: {line}");
        assert!(!room.exists("left.lock"), "{words}");
    }
    let line = room.refused("session left offer 1 a s none seed opening");
    assert_eq!(line, "refusal=2 place=0 input=e length=0 expected=1024");
    let line = room.refused("session left offer 6 a s e seed opening");
    assert_eq!(line, "refusal=1 place=0 scheme=6 expected=0..5");
    assert!(!room.exists("left") && !room.exists("opening"));

    assert_eq!(room.done(OFFER), "written=1824\nstage=offered\nscheme=1\n");
    assert_eq!((room.read("left").len(), room.mode("left")), (130, 0o600));
    assert_eq!(room.read("left")[..3], [1, 1, 0]);
    let told = "message_written=2048\nkey_written=32\ndigest_written=32\nstage=keyed\nscheme=1\n";
    assert_eq!(room.done(REPLY), told);
    assert_eq!(room.read("right")[2..34], room.read("key"));

    // another scheme, an earlier call, a short reply: the session stays
    let offered = room.read("left");
    let line = room.refused(&FINISH.replace(" 1 ", " 2 "));
    assert_eq!(line, "refusal=10 place=0 stage=offered scheme=2 expected=1");
    let line = room.refused("session left offer 1 a s e seed other");
    assert_eq!(line, "refusal=10 place=0 stage=offered expected=idle");
    assert!(!room.exists("other"));
    let line = room.refused("session left finish 1 opening s key2 digest2");
    assert_eq!(
        line,
        "refusal=2 place=0 input=reply length=1824 expected=2048"
    );
    assert_eq!(room.read("left"), offered);

    let told = "key_written=32\ndigest_written=32\nslack=0\nslack_index=0\nstage=keyed\nscheme=1\n";
    assert_eq!(room.done(FINISH), told);
    assert_eq!(room.read("left"), room.read("right"));
    assert_eq!(room.done("session left show"), "stage=keyed\nscheme=1\n");

    assert_eq!(room.done("session left close"), "stage=idle\n");
    assert_eq!(room.read("left"), [0; 130]);
    assert_eq!(room.done("session left show"), "stage=idle\n");

    // what is no session
    let line = room.refused("session s show");
    assert_eq!(
        line,
        "refusal=10 place=0 stage=none length=4096 expected=130"
    );
    let secret = room.read("s");
    let line = room.fails(3, "session s close");
    assert_eq!(
        line,
        "wimmostry: s: is no session: it has 4096 bytes, not 130\n"
    );
    assert_eq!(room.read("s"), secret);
    room.put("left", [3; 130]);
    assert_eq!(
        room.refused(&format!("--replace {OFFER}")),
        "refusal=10 place=0 stage=none"
    );
    assert_eq!(room.read("left"), [3; 130]);
    assert_eq!(room.done("session left close"), "stage=idle\n");
}

/// A second finish is refused by 10 and touches neither key nor digest; the session
/// gives both back.
#[test]
fn a_key_is_not_lost_by_asking_twice() {
    let room = Room::new("twice");
    drawn(&room);
    for words in [OFFER, REPLY, FINISH] {
        room.done(words);
    }
    let key = (room.read("key2"), room.read("digest2"));
    let line = room.fails(3, FINISH);
    assert!(line.contains("key2: is there already"), "{line}");
    let line = room.refused(&format!("--replace {FINISH}"));
    assert_eq!(line, "refusal=10 place=0 stage=keyed expected=offered");
    assert_eq!((room.read("key2"), room.read("digest2")), key);

    let told = "key_written=32\ndigest_written=32\nstage=keyed\nscheme=1\n";
    assert_eq!(room.done("session left key key3 digest3"), told);
    assert_eq!((room.read("key3"), room.read("digest3")), key);
    assert_eq!(room.mode("key3"), 0o600);
    room.done("session left close");
    let line = room.refused("session left key key4 digest4");
    assert_eq!(line, "refusal=10 place=0 stage=idle expected=keyed");
    assert!(!room.exists("key4"));
}

/// What is done and cannot be said is status 5.
#[test]
fn what_cannot_be_said_is_done() {
    let room = Room::new("unsaid");
    drawn(&room);
    room.done(OFFER);
    room.done(REPLY);
    let words: Vec<&str> = FINISH.split(' ').collect();
    let full = fs::OpenOptions::new()
        .write(true)
        .open("/dev/full")
        .unwrap();
    let done = room.command(&words).stdout(full).output().unwrap();
    assert_eq!(done.status.code(), Some(5), "{done:?}");
    let line = String::from_utf8(done.stderr).unwrap();
    assert!(
        line.starts_with("wimmostry: standard output: done, but"),
        "{line}"
    );
    assert_eq!(room.read("key2"), room.read("key"));
    assert_eq!(room.done("session left show"), "stage=keyed\nscheme=1\n");
}

/// A session or a link on which another command works is busy after a second, and is
/// not touched; one that is free by then is not.
#[test]
fn one_command_at_a_time() {
    let room = Room::new("busy");
    drawn(&room);
    room.done(OFFER);
    room.done("link open linked 1");
    room.put("message", [255; 2048]);
    for (lock, words) in [
        ("left.lock", "session left finish 1 message s key2 digest2"),
        ("left.lock", "session left close"),
        ("linked/lock", "link finish linked message"),
        ("linked/lock", "link close linked"),
    ] {
        let held = fs::OpenOptions::new()
            .write(true)
            .open(room.0.join(lock))
            .unwrap();
        held.lock().unwrap();
        let begun = std::time::Instant::now();
        let line = room.fails(3, words);
        assert!(line.contains(&format!("{lock}: busy")), "{words}: {line}");
        assert!(begun.elapsed().as_secs() < 5);
        let waiting = std::thread::spawn(move || {
            std::thread::sleep(std::time::Duration::from_millis(300));
            drop(held);
        });
        // it is free before the second is over: this one is refused by what came
        if words.contains("finish") {
            assert!(room.refused(words).starts_with("refusal=5 "), "{words}");
        }
        waiting.join().unwrap();
    }
    assert_eq!(room.done("session left show"), "stage=offered\nscheme=1\n");
    assert!(room
        .done("link status linked")
        .starts_with("stage=offered\n"));
    room.done("session left close");
    assert!(!room.exists("left.lock"));
}

/// Of many replies at once one is done; the others are told why not.
#[test]
fn one_of_many_replies_is_done() {
    let room = Room::new("many");
    drawn(&room);
    room.done(OFFER);
    let reply = |k: usize| format!("session right reply 1 opening a s1 e1 e2 coins r{k} k{k} d{k}");
    let start = |k: usize| {
        let words = reply(k);
        let words: Vec<&str> = words.split(' ').collect();
        let mut command = room.command(&words);
        command
            .stdout(std::process::Stdio::null())
            .stderr(std::process::Stdio::null());
        command.spawn().unwrap()
    };
    let running: Vec<_> = (0..20).map(start).collect();
    let ended: Vec<Option<i32>> = running
        .into_iter()
        .map(|mut child| child.wait().unwrap().code())
        .collect();
    let of = |status: i32| ended.iter().filter(|&&code| code == Some(status)).count();
    assert_eq!(of(0), 1, "{ended:?}");
    assert_eq!(of(0) + of(1) + of(3), ended.len(), "{ended:?}");
    let keys = room
        .names(".")
        .into_iter()
        .filter(|name| name.starts_with('k'))
        .count();
    assert_eq!(keys, 1);
}
