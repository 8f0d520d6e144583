//! The calls on files: their answers and refusals. Outputs are replaced here;
//! `files.rs` has the rule.

use crate::room::{refused, Room};
use std::fs;
use std::os::unix::fs::symlink;

#[test]
fn two_ends_hold_one_key() {
    let room = Room::new("exchange");
    for scheme in 0..6 {
        for what in ["a", "s", "e", "seed", "s1", "e1", "e2", "coins"] {
            room.done(&format!("--replace draw {scheme} {what} {what}"));
        }
        room.done(&format!("--replace offer {scheme} a s e seed opening"));
        room.done(&format!(
            "--replace reply {scheme} opening a s1 e1 e2 coins reply right right.digest"
        ));
        let told = room.done(&format!(
            "--replace finish {scheme} reply s left left.digest"
        ));
        let key = room.read("left").len();
        let written = format!("key_written={key}\ndigest_written=32\n");
        let slack = told.strip_prefix(&written).expect("the counts come first");
        let lines: Vec<&str> = slack.lines().collect();
        assert!(lines[0].starts_with("slack=") && lines[1].starts_with("slack_index="));
        assert_eq!(lines.len(), 2);
        if scheme == 1 {
            assert_eq!(slack, "slack=0\nslack_index=0\n");
        }
        let digests = [room.read("left.digest"), room.read("right.digest")];
        room.done("--replace hash sha3-256 left hash");
        assert_eq!(room.read("hash"), digests[0]);
        assert_eq!(
            digests[0] == digests[1],
            room.read("left") == room.read("right")
        );
        let found = room.done(&format!(
            "--replace bench {scheme} a s e seed s1 e1 e2 coins"
        ));
        let same = room.read("left") == room.read("right");
        assert_eq!(found == format!("agree\n{slack}"), same);
        assert!(same || found.starts_with("differ=") && found.ends_with(slack));
        assert!(same || scheme != 0, "BCNS's keys cannot differ");
    }
    assert_eq!(room.mode("left"), 0o600);
}

/// Frodo by rows gives the bytes of the whole matrix; A that is damaged is refused
/// at its row and column, and leaves no file.
#[test]
fn by_rows_as_whole() {
    let room = Room::new("rows");
    let (n, all, last) = (352, 352 * 352, 351);
    for what in ["a", "s", "e", "seed", "s1", "e1", "e2", "coins"] {
        room.done(&format!("--replace draw 2 {what} {what}"));
    }
    room.done("--replace offer 2 a s e seed opening");
    let told = room.done("--replace rows offer 2 a s e seed by.opening");
    assert_eq!(told, "written=3888\n");
    assert_eq!(room.read("by.opening"), room.read("opening"));
    let told = room.done("--replace reply 2 opening a s1 e1 e2 coins reply key digest");
    let by_rows = room.done("--replace rows reply 2 opening a s1 e1 e2 by.reply by.key by.digest");
    assert_eq!(by_rows, told);
    for name in ["reply", "key", "digest"] {
        assert_eq!(room.read(&format!("by.{name}")), room.read(name));
    }

    let a = room.read("a");
    let fed = |input: &[u8]| room.fed("--replace rows offer 2 - s e seed by.opening", input);
    let short = &a[..4 * all - 4];
    let ended = |row: usize, column: usize, length: &str| {
        format!(
            "refusal=11 place=0 input=a row={row} column={column} length={length} expected={all}"
        )
    };
    for (given, line) in [
        (
            [short, &2048u32.to_le_bytes()].concat(),
            "refusal=4 place=351 input=a row=351 column=351 value=2048 below=2048".to_string(),
        ),
        (short.to_vec(), ended(last, last, "123903")),
        ([&a[..], &[0; 8]].concat(), ended(n, 0, "123905..")),
        (vec![], ended(0, 0, "0")),
    ] {
        // one line: no progress but on a terminal
        assert_eq!(refused(fed(&given)), line);
        assert!(!room.exists("by.opening"));
    }
    assert_eq!(fed(&a).status.code(), Some(0));
    assert_eq!(room.read("by.opening"), room.read("opening"));
    // half a number is a file's fault, and no output is touched
    let done = fed(&a[..4 * all - 2]);
    let line = "wimmostry: standard input: 495614 bytes are no whole number of 32-bit numbers\n";
    assert_eq!(done.status.code(), Some(3), "{done:?}");
    assert_eq!(String::from_utf8(done.stderr).unwrap(), line);
    assert_eq!(room.read("by.opening"), room.read("opening"));

    let line = room.refused("--replace rows offer 1 a s e seed by.opening");
    assert_eq!(line, "refusal=1 place=0 scheme=1 expected=2..5");
    assert!(!room.exists("by.opening"));
}

#[test]
fn a_refusal_says_why_and_leaves_no_file() {
    let room = Room::new("refusal");
    room.done("draw 1 s s");
    for replace in ["--replace ", ""] {
        for (words, line) in [
            (
                "1 none s key digest",
                "refusal=2 place=0 input=reply length=0 expected=2048",
            ),
            (
                "9 none s key digest",
                "refusal=1 place=0 scheme=9 expected=0..5",
            ),
        ] {
            if !replace.is_empty() {
                room.put("key", "an old key");
                room.put("digest", "an old digest");
            }
            assert_eq!(room.refused(&format!("{replace}finish {words}")), line);
            assert_eq!(room.names("."), ["s"]);
        }
    }
    let done = room.run("finish 1 none s key digest");
    let line = "refusal=2 place=0 input=reply length=0 expected=2048: \
                an input's length is not the fixed one (streams, hashes: over 65536)\n";
    assert_eq!(String::from_utf8(done.stderr).unwrap(), line);
}

#[test]
fn a_blank_message_is_turned_away() {
    let room = Room::new("blank");
    let zero = |name: &str, part: std::ops::Range<usize>| {
        let mut bytes = room.read(name);
        bytes[part].fill(0);
        room.put("blank", bytes);
    };
    // where the packed part begins in an opening, and its bytes; the entries of s
    for (scheme, start, packed, n) in [(0, 0, 4096, 1024), (1, 0, 1792, 1024), (2, 16, 3872, 2816)]
    {
        for what in ["a", "s", "e", "seed", "s1", "e1", "e2", "coins"] {
            room.done(&format!("--replace draw {scheme} {what} {what}"));
        }
        room.done(&format!("--replace offer {scheme} a s e seed opening"));
        let reply = |opening: &str, s1: &str, e1: &str| {
            format!("--replace reply {scheme} {opening} a {s1} {e1} e2 coins reply key digest")
        };
        room.done(&reply("opening", "s1", "e1"));

        // received, with the seed or the hints there
        zero("reply", 0..packed);
        let line = room.refused(&format!("--replace finish {scheme} blank s key digest"));
        assert_eq!(
            line,
            format!("refusal=17 place=0 input=reply zeros={packed}")
        );
        zero("opening", start..start + packed);
        let line = room.refused(&reply("blank", "s1", "e1"));
        let told = format!("refusal=17 place=0 input=opening zeros={packed}");
        assert_eq!(line, told);
        assert!(!room.exists("reply") && !room.exists("key"));

        // about to be sent: a zero secret passes where there is noise
        room.put("zeros", vec![0; 4 * n]);
        room.put("zeros2", vec![0; 4 * n]);
        room.done(&format!("--replace offer {scheme} a zeros e seed out"));
        let line = room.refused(&format!("--replace offer {scheme} a zeros zeros2 seed out"));
        assert_eq!(line, "refusal=17 place=0 output=message zero=s,e");
        assert!(!room.exists("out"));
        room.done(&reply("opening", "zeros", "e1"));
        let line = room.refused(&reply("opening", "zeros", "zeros2"));
        assert_eq!(line, "refusal=17 place=0 output=message zero=s1,e1");
        // what was received is told first
        assert_eq!(room.refused(&reply("blank", "zeros", "zeros2")), told);

        // in bench there is no message to name
        let bench = |s: &str, e: &str, s1: &str, e1: &str| {
            format!("bench {scheme} a {s} {e} seed {s1} {e1} e2 coins")
        };
        let line = room.refused(&bench("zeros", "zeros2", "s1", "e1"));
        assert_eq!(line, "refusal=17 place=0 zero=s,e");
        let line = room.refused(&bench("s", "e", "zeros", "zeros2"));
        assert_eq!(line, "refusal=17 place=0 zero=s1,e1");
    }
    // nothing is sent, though neither is zero: a is 1, and e is -s
    let mut one = vec![0; 4096];
    one[0] = 1;
    for name in ["a1", "one", "two", "three", "four"] {
        room.put(name, &one);
    }
    one[..4].fill(255);
    room.put("minus", &one);
    let line = room.refused("--replace offer 0 a1 one minus none out");
    assert_eq!(line, "refusal=17 place=0 output=message");
    let line = room.refused("--replace bench 0 a1 one minus none two three four none");
    assert_eq!(line, "refusal=17 place=0");
}

#[test]
fn noise_in_bcns_goes_by_a_table() {
    let room = Room::new("table");
    let shipped = include_str!("../../../data/bcns-table.txt");
    let put = |name: &str, text: &str| room.put(name, text);
    put("table", shipped);
    // v is the first entry, one less, and as large as can be; both signs
    let mut bytes = vec![0; 25600];
    bytes[0] = 0x20;
    bytes[25] = 0x1f;
    bytes[26..49].fill(255);
    bytes[50..75].fill(255);
    bytes[99] = 1;
    room.put("bytes", &bytes);
    assert_eq!(
        room.done("--replace noise 0 bytes table s"),
        "written=1024\n"
    );
    let values = room.read("s");
    let value = |k: usize| i32::from_le_bytes(values[4 * k..4 * k + 4].try_into().unwrap());
    assert_eq!([0, 1, 2, 3, 4].map(value), [1, 0, -51, 0, 0]);

    // lengths, of the bytes first; no other scheme takes a table
    let line = room.refused("--replace noise 0 none none s");
    assert_eq!(
        line,
        "refusal=2 place=0 input=bytes length=0 expected=25600"
    );
    assert!(!room.exists("s"));
    let line = room.refused("--replace noise 0 bytes none s");
    assert_eq!(line, "refusal=2 place=0 input=table length=0 expected=153");
    let lines: Vec<&str> = shipped
        .lines()
        .filter(|line| !line.starts_with('#'))
        .collect();
    put("short", &lines[..50].join("\n"));
    let line = room.refused("--replace noise 0 bytes short s");
    assert_eq!(
        line,
        "refusal=2 place=0 input=table length=150 expected=153"
    );
    room.put("few", &bytes[..4096]);
    let line = room.refused("--replace noise 1 few table s");
    assert_eq!(line, "refusal=2 place=0 input=table length=153 expected=0");
    assert_eq!(room.done("--replace noise 1 few none s"), "written=1024\n");
    let line = room.refused("--replace noise 6 few none s");
    assert_eq!(line, "refusal=1 place=0 scheme=6 expected=0..5");

    // an entry equal to its forerunner
    let mut equal = lines.clone();
    equal[25] = equal[24];
    put("equal", &equal.join("\n"));
    let entry = equal[24].replace(' ', "");
    let line = room.refused("--replace noise 0 bytes equal s");
    let told = format!("refusal=18 place=25 input=table value={entry} above={entry}");
    assert_eq!(line, told);
    assert!(!room.exists("s"));

    // texts that are no table: nothing is touched
    put("s", "old");
    put("words", &lines.join("\n").replacen(' ', "", 1));
    put("long", &"#\n".repeat(40000));
    for (name, why) in [
        (
            "words",
            "line 1 is not an entry, three words of 16 hexadecimal digits",
        ),
        ("long", "it has over 65536 bytes"),
    ] {
        let done = room.run(&format!("--replace noise 0 bytes {name} s"));
        assert_eq!(done.status.code(), Some(3));
        let said = String::from_utf8(done.stderr).unwrap();
        assert_eq!(said, format!("wimmostry: {name}: is no table: {why}\n"));
        assert_eq!(room.read("s"), b"old");
    }
}

#[test]
fn expand_goes_by_its_rule() {
    let room = Room::new("rule");
    // 12289, which rule 14 passes over and rule 16 takes as 0
    fs::write(room.0.join("stream"), [1, 48].repeat(1024)).unwrap();
    let line = room.refused("--replace expand 14 stream a");
    assert_eq!(line, "refusal=7 place=0 input=stream expected=1024");
    fs::write(room.0.join("a"), "old numbers").unwrap();
    assert_eq!(room.done("--replace expand 16 stream a"), "written=1024\n");
    assert_eq!(room.read("a"), [0; 4096]);
    fs::write(room.0.join("a"), "old numbers").unwrap();
    let line = room.refused("--replace expand 15 stream a");
    assert_eq!(line, "refusal=12 place=0 rule=15 expected=14,16");
    assert!(!room.exists("a"));
    let line = room.fails(2, "expand x stream a");
    assert_eq!(line, "wimmostry: RULE is 14 or 16, not 'x'\n");
}

#[test]
fn grow_is_expand_on_24_blocks() {
    let room = Room::new("grow");
    room.done("--replace draw 1 seed seed");
    let line = room.done("--replace hash shake128 4032 seed stream");
    assert_eq!(line, "written=4032\n");
    for rule in [14, 16] {
        let line = room.done(&format!("--replace grow {rule} seed grown"));
        assert_eq!(line, "written=1024\n");
        room.done(&format!("--replace expand {rule} stream expanded"));
        assert_eq!(room.read("grown"), room.read("expanded"));
    }
    let line = room.refused("--replace grow 14 stream grown");
    assert_eq!(line, "refusal=2 place=0 input=seed length=4032 expected=32");
    assert!(!room.exists("grown"));
    let line = room.refused("--replace grow 15 none grown");
    assert_eq!(line, "refusal=12 place=0 rule=15 expected=14,16");
}

#[test]
fn hashes() {
    let room = Room::new("hash");
    assert_eq!(
        room.done("--replace hash sha3-256 none out"),
        "written=32\n"
    );
    assert_eq!(room.read("out")[..4], [0xa7, 0xff, 0xc6, 0xf8]);
    assert_eq!(
        room.done("--replace hash shake128 0 none out"),
        "written=0\n"
    );
    assert_eq!(room.read("out"), []);
    fs::write(room.0.join("long"), [7; 70000]).unwrap();
    let told = "refusal=2 place=0 input=input length=70000 at-most=65536";
    assert_eq!(room.refused("--replace hash sha3-256 long out"), told);
    assert_eq!(room.refused("--replace hash shake128 5 long out"), told);
    assert!(!room.exists("out"));
    for words in ["hash", "hash md5 none out", "hash shake128 -1 none out"] {
        assert_eq!(room.run(words).status.code(), Some(2), "{words}");
    }
    let both = room.done("--replace help hash");
    let pages =
        ["sha3-256", "shake128"].map(|name| room.done(&format!("--replace hash {name} --help")));
    assert_eq!(both, pages.join("\n"));
}

#[test]
fn settings_are_kept() {
    let room = Room::new("settings");
    let kept = || String::from_utf8(room.read("box")).unwrap();
    let told = room.done("settings write 4 16 STUDIO7 box");
    assert_eq!(told, "written=40\n");
    let text = "format=2\nscheme=4\nrule=16\nlabel=STUDIO7\n";
    assert_eq!(kept(), text);
    assert_eq!(room.done("settings read box"), text);
    // after a refusal the old settings stay
    for (words, told) in [
        ("6 16 A", "refusal=1 place=0 scheme=6 expected=0..5"),
        ("4 15 A", "refusal=12 place=0 rule=15 expected=14,16"),
        (
            "4 16 ABCDEFGHIJKLMNOPQ",
            "refusal=2 place=0 input=label length=17 at-most=16",
        ),
        ("4 16 a", "refusal=8 place=0 input=label allowed=A..Z,0..9"),
    ] {
        assert_eq!(room.refused(&format!("settings write {words} box")), told);
        assert_eq!(kept(), text);
    }
    let done = room.command(&["settings", "write", "1", "14", "", "box"]);
    let done = { done }.output().unwrap();
    assert_eq!(done.status.code(), Some(2), "an empty label: {done:?}");
    assert_eq!(kept(), text);
    assert_eq!(room.done("settings write newhope 16 box"), "written=26\n");
    assert_eq!(kept(), "format=1\nscheme=1\nrule=16\n");
    let demo = room.done("demo settings box");
    assert!(demo.contains("grown from the seed by rule 16"), "{demo}");
    // they stand for a scheme or a rule, on a session too
    for what in ["s", "e", "seed"] {
        room.done(&format!("draw settings=box {what} {what}"));
    }
    room.done("grow settings=box seed a");
    room.done("grow 16 seed b");
    assert_eq!(room.read("a"), room.read("b"));
    let told = "written=1824\nstage=offered\nscheme=1\n";
    let offer = "session link offer settings=box a s e seed opening";
    assert_eq!(room.done(offer), told);
    for name in ["s", "e", "seed", "a", "b", "link", "link.lock", "opening"] {
        fs::remove_file(room.0.join(name)).unwrap();
    }
    // bad settings are refused alike wherever they stand
    for (text, line) in [
        ("format=3\nlater\n", "refusal=15 place=0 format=3 newest=2"),
        ("format=1\nscheme=1\n", "refusal=8 place=0 line=3"),
    ] {
        room.put("box", text);
        for words in [
            "settings read box",
            "demo settings box",
            "draw settings=box s s",
            "grow settings=box none a",
        ] {
            assert_eq!(room.refused(words), line, "{words}");
        }
        // what is no settings is not replaced by some
        let told = room.fails(3, "settings write 1 14 box");
        assert!(told.contains("box: is there already"), "{told}");
        assert_eq!(kept(), text);
    }
    room.done("--replace settings write 1 14 box");
    assert_eq!(room.names("."), ["box"]);
}

#[test]
fn a_trace_is_summed_up() {
    let room = Room::new("trace");
    let put = |text: &str| room.put("slacks", text);
    // standard output is the proved program's, to the byte
    let refuses = || {
        let done = room.run("trace slacks");
        assert_eq!(
            (done.status.code(), &done.stdout[..]),
            (Some(1), &b"refusal=8\n"[..])
        );
    };
    put("scheme=4\nslack=512\nscheme=2\nslack=0\nscheme=4\nslack=7\n");
    let told = "scheme=2\nexchanges=1\nsum=0\nlargest=0\n\
                scheme=4\nexchanges=2\nsum=519\nlargest=512\n";
    assert_eq!(room.done("trace slacks"), told);
    put("");
    assert_eq!(room.done("trace slacks"), "");
    assert_eq!(room.done("trace none"), "");
    for other in [
        "scheme=6\nslack=0\n",
        "scheme=4\n",
        "scheme=4\nslack=7",
        "\n",
    ] {
        put(other);
        refuses();
    }
    let longest = "scheme=5\nslack=9999999999\n".repeat(2048);
    put(&longest);
    let told = "scheme=5\nexchanges=2048\nsum=20479999997952\nlargest=9999999999\n";
    assert_eq!(room.done("trace slacks"), told);
    put(&(longest.clone() + "scheme=5\nslack=0\n"));
    refuses();
    put(&longest.repeat(3));
    refuses();
}

#[test]
fn wrong_words_and_files_touch_nothing() {
    let room = Room::new("wrong");
    room.done("--replace draw 1 s s");
    let secret = room.read("s");
    // what /dev/stdout is; the machine's own is never named here, lest a program that has got this
    // wrong replace it
    symlink("/proc/self/fd/1", room.0.join("stdout")).unwrap();
    for (status, words) in [
        (2, "finish 1 none s s digest"),
        (2, "finish 1 none s key s"),
        (2, "reply 1 none none none none none none s s digest"),
        (2, "finish x none s s digest"),
        (2, "help me"),
        (2, "demo x"),
        (2, "hash sha3-256 s s"),
        (2, "trace"),
        (2, "trace s s"),
        (2, "session s finish 1 none s key digest"),
        (2, "session link finish 1 none s link digest"),
        (2, "session link finish 1 none s link.lock digest"),
        (2, "session - show"),
        (2, "offer 1 none s s none opening"),
        (2, "draw 1 s --nosuch"),
        (3, "trace missing"),
        (3, "finish 1 missing s key digest"),
        (3, "finish 1 none s missing/key digest"),
        (3, "finish 1 none s stdout digest"),
    ] {
        let done = room.run(words);
        assert_eq!(done.status.code(), Some(status), "{words}: {done:?}");
        assert!(done.stdout.is_empty(), "{words}");
        assert!(done.stderr.starts_with(b"wimmostry: "), "{words}");
        assert_eq!(room.read("s"), secret, "{words}");
    }
    assert_eq!(fs::read_dir(&room.0).unwrap().count(), 2);
}
