use second::trace::trace;

fn told(input: &str) -> String {
    String::from_utf8(trace(input.as_bytes())).unwrap()
}

fn of(exchanges: &[(u64, u64)]) -> String {
    let lines = exchanges
        .iter()
        .map(|(scheme, slack)| format!("scheme={scheme}\nslack={slack}\n"));
    lines.collect()
}

const REFUSED: &str = "refusal=8\n";

#[test]
fn an_empty_trace_prints_nothing() {
    assert_eq!(told(""), "");
}

#[test]
fn each_scheme_present_lowest_first() {
    let text = of(&[(4, 17), (0, 1073741824), (4, 512), (2, 0), (4, 3)]);
    let expected = "scheme=0\nexchanges=1\nsum=1073741824\nlargest=1073741824\n\
                    scheme=2\nexchanges=1\nsum=0\nlargest=0\n\
                    scheme=4\nexchanges=3\nsum=532\nlargest=512\n";
    assert_eq!(told(&text), expected);
    // NewHope's slack is 0 from Finish; a trace may say what it likes.
    assert_eq!(
        told("scheme=1\nslack=5\n"),
        "scheme=1\nexchanges=1\nsum=5\nlargest=5\n"
    );
}

#[test]
fn sums_are_exact_and_4096_lines_are_the_most() {
    let most = of(&[(3, 9999999999); 2048]);
    let expected = "scheme=3\nexchanges=2048\nsum=20479999997952\nlargest=9999999999\n";
    assert_eq!(told(&most), expected);
    assert_eq!(told(&(most.clone() + "scheme=3\n")), REFUSED);
    assert_eq!(told(&(most.clone() + "scheme=3\nslack=1\n")), REFUSED);
    assert_eq!(told(&(most + "\n")), REFUSED);
}

#[test]
fn other_text() {
    for text in [
        "\n",
        "scheme=2\n",
        "slack=7\n",
        "slack=7\nscheme=2\n",
        "scheme=2\nscheme=2\n",
        "scheme=2\nslack=7\nscheme=2\n",
        "scheme=2\nslack=7\nslack=7\n",
        "scheme=2\nslack=7",
        "scheme=2slack=7\n",
        "scheme=2\n\nslack=7\n",
        "scheme=2\nslack=7\n\n",
        "\nscheme=2\nslack=7\n",
        "scheme=2\r\nslack=7\r\n",
        "scheme=6\nslack=7\n",
        "scheme=02\nslack=7\n",
        "scheme=4294967296\nslack=7\n",
        "scheme=2\nslack=07\n",
        "scheme=2\nslack=\n",
        "scheme=\nslack=7\n",
        "scheme=2\nslack=10000000000\n",
        "scheme=2\nslack=-7\n",
        "scheme=2\nslack=+7\n",
        "scheme=2\nslack= 7\n",
        "scheme=2\nslack=7 \n",
        "scheme=2\nslack=7x\n",
        "scheme=2\nslack=0x7\n",
        "scheme=2\nslack=7\0\n",
        "Scheme=2\nslack=7\n",
        "scheme=2\nslacks=7\n",
        "scheme2\nslack=7\n",
        "scheme=2\nslack=7\nx",
    ] {
        assert_eq!(told(text), REFUSED, "{text:?}");
    }
    assert_eq!(trace(&[0xff, 0xfe]), REFUSED.as_bytes());
}

#[test]
fn every_cut_and_every_other_byte() {
    let text = of(&[(2, 256), (5, 9999999999)]);
    for end in 1..text.len() {
        let whole = end == "scheme=2\nslack=256\n".len();
        assert_eq!(told(&text[..end]) == REFUSED, !whole, "{end}");
    }
    // Only a digit can be another byte, and it stays a digit.
    for at in 0..text.len() {
        for byte in 0..=255u8 {
            let mut other = text.clone().into_bytes();
            let before = std::mem::replace(&mut other[at], byte);
            if trace(&other) != REFUSED.as_bytes() {
                let digits = before.is_ascii_digit() && byte.is_ascii_digit();
                assert!(digits || before == byte, "{at} {byte}");
            }
        }
    }
}
