use second::line::line;
use second::schemes::SIX;

fn told(input: &str) -> String {
    String::from_utf8(line(input.as_bytes())).unwrap()
}

fn ask(scheme: u64, coin: u64, v: u64, w: u64) -> String {
    told(&format!("scheme={scheme}\ncoin={coin}\nv={v}\nw={w}\n"))
}

const EXAMPLE: &str = "scheme=4\ncoin=0\nv=1023\nw=1535\n";

#[test]
fn the_example() {
    assert_eq!(told(EXAMPLE), "hint=0\nkey=0\npeer=0\n");
    assert_eq!(ask(4, 0, 1023, 1536), "hint=0\nkey=0\npeer=1\n");
    assert_eq!(ask(0, 2, 1073741824, 1610612736), "hint=0\nkey=0\npeer=1\n");
    assert_eq!(ask(0, 0, 1073741824, 1073741824), "hint=1\nkey=1\npeer=1\n");
    assert_eq!(ask(4, 0, 32767, 0), "hint=1\nkey=0\npeer=0\n");
    assert_eq!(ask(5, 0, 30719, 30719), "hint=1\nkey=15\npeer=15\n");
}

#[test]
fn other_text() {
    let texts = [
        "",
        "\n",
        "scheme=4\n",
        "scheme=4\ncoin=0\nv=1023\n",
        "scheme=4\ncoin=0\nv=1023\nw=1535",
        "scheme=4\ncoin=0\nv=1023\nw=1535\n\n",
        "scheme=4\ncoin=0\nv=1023\nw=1535\nx",
        "scheme=4\ncoin=0\nv=1023\nw=1535\nx=1\n",
        "scheme=4\ncoin=0\nv=1023\nw=1535\0",
        "scheme=4\r\ncoin=0\r\nv=1023\r\nw=1535\r\n",
        "scheme=4\ncoin=0\nv=1023\nw=1535\r\n",
        "scheme=4\ncoin=0\nw=1535\nv=1023\n",
        "coin=0\nscheme=4\nv=1023\nw=1535\n",
        "\nscheme=4\ncoin=0\nv=1023\nw=1535\n",
        "scheme=4\n\ncoin=0\nv=1023\nw=1535\n",
        " scheme=4\ncoin=0\nv=1023\nw=1535\n",
        "scheme =4\ncoin=0\nv=1023\nw=1535\n",
        "scheme= 4\ncoin=0\nv=1023\nw=1535\n",
        "scheme=4 \ncoin=0\nv=1023\nw=1535\n",
        "Scheme=4\ncoin=0\nv=1023\nw=1535\n",
        "scheme:4\ncoin=0\nv=1023\nw=1535\n",
        "scheme=\ncoin=0\nv=1023\nw=1535\n",
        "scheme=4\ncoin=\nv=1023\nw=1535\n",
        "scheme=4\ncoin=0\nv=\nw=1535\n",
        "scheme=4\ncoin=0\nv=1023\nw=\n",
        "scheme=04\ncoin=0\nv=1023\nw=1535\n",
        "scheme=4\ncoin=00\nv=1023\nw=1535\n",
        "scheme=4\ncoin=0\nv=01023\nw=1535\n",
        "scheme=4\ncoin=0\nv=1023\nw=0000000000\n",
        "scheme=4\ncoin=0\nv=10000000000\nw=1535\n",
        "scheme=4\ncoin=0\nv=1023\nw=12345678901\n",
        "scheme=+4\ncoin=0\nv=1023\nw=1535\n",
        "scheme=-4\ncoin=0\nv=1023\nw=1535\n",
        "scheme=4\ncoin=-0\nv=1023\nw=1535\n",
        "scheme=4\ncoin=0\nv=0x3F\nw=1535\n",
        "scheme=4\ncoin=0\nv=1_023\nw=1535\n",
        "scheme=4\ncoin=0\nv=1023.\nw=1535\n",
        "scheme=4\ncoin=0\nv=٣\nw=1535\n",
        "\u{feff}scheme=4\ncoin=0\nv=1023\nw=1535\n",
    ];
    for text in texts {
        assert_eq!(told(text), "refusal=8\n", "{text:?}");
    }
    assert_eq!(line(&[0xFF, 0xFE]), b"refusal=8\n");
}

#[test]
fn every_cut_and_every_added_byte() {
    for end in 0..EXAMPLE.len() {
        assert_eq!(told(&EXAMPLE[..end]), "refusal=8\n");
    }
    for byte in 0..=255u8 {
        let mut text = EXAMPLE.as_bytes().to_vec();
        text.push(byte);
        assert_eq!(line(&text), b"refusal=8\n");
    }
}

#[test]
fn ten_digits_are_text_and_too_large() {
    assert_eq!(ask(9999999999, 0, 0, 0), "refusal=1\n");
    assert_eq!(ask(0, 9999999999, 0, 0), "refusal=9\n");
    assert_eq!(ask(0, 0, 9999999999, 0), "refusal=4\n");
    assert_eq!(ask(0, 0, 0, 9999999999), "refusal=4\n");
    // 2^32 is not 0.
    assert_eq!(ask(4294967296, 0, 0, 0), "refusal=1\n");
    assert_eq!(ask(0, 4294967296, 0, 0), "refusal=9\n");
    assert_eq!(ask(0, 0, 4294967296, 0), "refusal=4\n");
}

#[test]
fn a_scheme_not_0_or_2_to_5() {
    for scheme in [1, 6, 7, 10] {
        assert_eq!(ask(scheme, 0, 0, 0), "refusal=1\n");
    }
    for scheme in [0, 2, 3, 4, 5] {
        assert_eq!(ask(scheme, 0, 0, 0), "hint=0\nkey=0\npeer=0\n");
    }
}

#[test]
fn coins() {
    for coin in 0..4 {
        assert!(ask(0, coin, 1, 1).starts_with("hint="));
    }
    assert_eq!(ask(0, 4, 1, 1), "refusal=9\n");
    for scheme in 2..=5 {
        for coin in [1, 2, 3, 4] {
            assert_eq!(ask(scheme, coin, 1, 1), "refusal=9\n");
        }
    }
}

#[test]
fn v_and_w_below_q() {
    for s in SIX.iter().filter(|s| s.number != 1) {
        let q = s.q as u64;
        assert!(ask(s.number, 0, q - 1, q - 1).starts_with("hint="));
        assert_eq!(ask(s.number, 0, q, 0), "refusal=4\n");
        assert_eq!(ask(s.number, 0, 0, q), "refusal=4\n");
        assert_eq!(ask(s.number, 0, q, q), "refusal=4\n");
    }
}

#[test]
fn in_that_order() {
    assert_eq!(told("scheme=1\ncoin=9\nv=99999\nw=9999x\n"), "refusal=8\n");
    assert_eq!(ask(1, 9, 99999, 99999), "refusal=1\n");
    assert_eq!(ask(4, 9, 99999, 99999), "refusal=9\n");
    assert_eq!(ask(4, 0, 99999, 99999), "refusal=4\n");
}
