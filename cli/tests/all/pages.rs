//! What is said as JSON, what is not said, and what a shell completes.

use crate::room::Room;
use std::process::Command;

#[test]
fn as_json() {
    let room = Room::new("json");
    let of = |status: i32, words: &str| {
        let done = room.run(words);
        assert_eq!(done.status.code(), Some(status), "{words}: {done:?}");
        String::from_utf8([done.stdout, done.stderr].concat()).unwrap()
    };
    assert_eq!(of(0, "--json draw 1 s s"), "{\"written\":1024}\n");
    let line = of(1, "draw 6 s x --json");
    let told = "{\"refusal\":1,\"place\":0,\"scheme\":6,\"expected\":\"0..5\",\
                \"text\":\"the scheme is not 0 to 5\"}\n";
    assert_eq!(line, told);
    let line = of(3, "--json draw 1 s s");
    assert!(
        line.starts_with("{\"status\":3,\"error\":\"s: is there already"),
        "{line}"
    );
    let line = of(2, "--json --nosuch");
    assert!(
        line.starts_with("{\"status\":2,\"error\":\"there is no option"),
        "{line}"
    );
    room.done("link open left 4");
    room.done("link answer right left/opening");
    let line = of(0, "--json link finish left right/reply");
    assert!(
        line.starts_with("{\"stage\":\"keyed\",\"scheme\":4,\"slack\":"),
        "{line}"
    );
    assert!(line.contains(",\"margin\":512,\"say\":\""), "{line}");
    assert_eq!(
        of(1, "--json link key left 0123456789abcdef key"),
        "{\"heard\":\"differs\"}\n"
    );
    room.put("slacks", "scheme=4\nslack=512\nscheme=1\nslack=0\n");
    let told = "{\"scheme\":1,\"exchanges\":1,\"sum\":0,\"largest\":0}\n\
                {\"scheme\":4,\"exchanges\":1,\"sum\":512,\"largest\":512,\"margin\":512}\n";
    assert_eq!(of(0, "--json trace slacks --margins"), told);
    let line = of(0, "--json demo 1");
    assert!(
        line.starts_with("{\"scheme\":1,\"opening\":1824,"),
        "{line}"
    );
    assert_eq!(line.lines().count(), 1);
}

#[test]
fn quietly() {
    let room = Room::new("quiet");
    assert_eq!(room.done("-q draw 1 s s"), "");
    assert_eq!(room.done("link open left 1 --quiet"), "");
    assert!(room
        .fails(3, "--quiet draw 1 s s")
        .contains("is there already"));
}

#[test]
fn margins_and_lines_of_a_trace() {
    let room = Room::new("margins");
    room.put("slacks", "scheme=4\nslack=512\nscheme=1\nslack=0\n");
    let told = "scheme=1\nexchanges=1\nsum=0\nlargest=0\n\
                scheme=4\nexchanges=1\nsum=512\nlargest=512\n";
    assert_eq!(room.done("trace slacks"), told);
    assert_eq!(
        room.done("--margins trace slacks"),
        format!("{told}margin=512\n")
    );
    room.put("slacks", "scheme=4\nslack=512\nscheme=1\nslak=0\n");
    let done = room.run("trace slacks");
    assert_eq!(
        (done.status.code(), &done.stdout[..]),
        (Some(1), &b"refusal=8\n"[..])
    );
    let line = String::from_utf8(done.stderr).unwrap();
    assert_eq!(
        line,
        "wimmostry: slacks: line 4 is 'slak=0', not slack=N and an LF\n"
    );
}

#[test]
fn bash_completes() {
    let room = Room::new("bash");
    let file = concat!(env!("CARGO_MANIFEST_DIR"), "/share/wimmostry.bash");
    let completes = |words: &str, expected: &str| {
        let at = words.split(' ').count() - 1;
        let script = format!(
            "source {file}; COMP_WORDS=(wimmostry {words} ''); COMP_CWORD={}; \
             [ -z '{words}' ] || unset 'COMP_WORDS[{}]'; COMP_CWORD={}; _wimmostry; \
             echo \"${{COMPREPLY[@]}}\"",
            at + 1,
            at + 2,
            at + 1
        );
        let done = Command::new("bash")
            .args(["-c", &script])
            .current_dir(&room.0)
            .output();
        let text = String::from_utf8(done.unwrap().stdout).unwrap();
        assert_eq!(text.trim_end(), expected, "{words}");
    };
    room.put("some.file", "");
    completes("li", "link");
    completes("link o", "open");
    completes("--replace link f", "finish");
    completes("session x sh", "show");
    completes("draw frodo-c", "frodo-challenge frodo-classical");
    completes("trace so", "some.file");
    completes("trace --m", "--margins");
}
