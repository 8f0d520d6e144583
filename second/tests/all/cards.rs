//! 01, "Bench cards", all of them, with the answers that 01 gives, in NewHope
//! those of request d (docs/RULES.md).

use second::cards::cards;

/// A card by its inputs: its outputs.
fn card(inputs: &str) -> String {
    let lines = cards();
    let start = format!("{inputs} : ");
    let mut found = lines.iter().filter_map(|line| line.strip_prefix(&start));
    let outputs = found.next().expect(inputs).to_string();
    assert_eq!(found.next(), None);
    outputs
}

#[test]
fn bcns() {
    assert_eq!(card("* bcns v=1073741824 coin=2"), "hint=0 bit=0");
    assert_eq!(card("* bcns w=1610612735 hint=0"), "bit=0");
    assert_eq!(card("* bcns w=1610612736 hint=0"), "bit=1");
    assert_eq!(card("* bcns v=1073741824 coin=0"), "hint=1 bit=1");
    assert_eq!(card("* bcns v=0 coin=2"), "hint=1 bit=0");
}

#[test]
fn frodo() {
    assert_eq!(card("* frodo scheme=4 v=1023"), "hint=0 key=0");
    assert_eq!(card("* frodo scheme=4 w=1535 hint=0"), "key=0");
    assert_eq!(card("* frodo scheme=4 w=1536 hint=0"), "key=1");
    assert_eq!(card("* frodo scheme=4 v=32767"), "hint=1 key=0");
    assert_eq!(card("* frodo scheme=4 w=0 hint=1"), "key=0");
}

#[test]
fn newhope() {
    let zero = "hint=0,0,0,0 bit=1";
    assert_eq!(card("* newhope x=0,0,0,0 coin=0"), zero);
    assert_eq!(card("* newhope x=0,0,0,0 coin=1"), zero);
    assert_eq!(
        card("* newhope x=6144,6144,6144,6144 coin=0"),
        "hint=0,0,0,0 bit=0"
    );
    assert_eq!(
        card("* newhope x=1536,1536,1536,1536 coin=0"),
        "hint=0,0,0,1 bit=1"
    );
}

#[test]
fn noise() {
    assert_eq!(card("* noise scheme=1 bytes=FFFF0000"), "value=16");
    assert_eq!(card("* noise scheme=1 bytes=01000300"), "value=-1");
    assert_eq!(card("* noise scheme=4 word=1205"), "value=0");
    assert_eq!(card("* noise scheme=4 word=1206"), "value=1");
    assert_eq!(card("* noise scheme=4 word=4095"), "value=-5");
}

#[test]
fn unmarked() {
    let ones = vec!["1"; 1024].join(",");
    assert_eq!(card("- transform of=1"), ones);
    assert!(card("- transform of=X").starts_with("7,343,"));
    let mut minus_one = vec!["0"; 1024];
    minus_one[0] = "12288";
    assert_eq!(card("- product of=X^1023,X"), minus_one.join(","));
    for call in ["reply", "finish"] {
        let inputs = format!("- {call} scheme=1 index=0 number=");
        assert_eq!(card(&format!("{inputs}12288")), "passes");
        assert_eq!(card(&format!("{inputs}12289")), "refusal=5 place=0");
    }
    assert_eq!(card("- expand stream="), "refusal=7 place=0");
}

#[test]
fn no_card_is_left_out() {
    let lines = cards();
    assert_eq!(lines.len(), 5 + 5 + 4 + 5 + 3 + 4 + 1);
    assert_eq!(
        lines.iter().filter(|line| line.starts_with("* ")).count(),
        19
    );
}
