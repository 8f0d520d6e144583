//! 02, request h: texts and settings to hold another program to, the same in
//! every run.

use super::{write, Settings, LABEL};
use crate::vectors::draw::Stream;
use std::collections::BTreeSet;

/// Texts, no two the same: every one that is good in a grid of settings, each of
/// these with one byte dropped, added or changed, with its lines in other orders
/// or other ends, with other numbers; and random ones.
pub fn texts(seed: u64) -> Vec<Vec<u8>> {
    let mut stream = Stream::new(seed);
    let mut all = vec![];
    for settings in grid() {
        let good = write(&settings);
        all.extend(one_byte(&mut stream, &good));
        all.extend(lines(&good));
        all.push(good);
    }
    all.extend(numbers());
    all.extend(formats());
    all.extend(labels());
    all.extend(random(&mut stream));
    let mut seen = BTreeSet::new();
    all.retain(|text| seen.insert(text.clone()));
    all
}

/// Settings of every scheme, rule and of some labels of each length.
pub fn grid() -> Vec<Settings> {
    let longest = b"ABCDEFGHIJKLMNOPQRSTUVWXYZ0123456789";
    let labels = [0, 1, 2, 7, 15, 16].map(|length| &longest[..length]);
    let others: [&[u8]; 4] = [b"0", b"9Z", b"STUDIO7", b"0000000000000000"];
    let mut grid = vec![];
    for scheme in 0..6 {
        for rule in [14, 16] {
            for label in labels.iter().chain(&others) {
                grid.push(Settings {
                    scheme,
                    rule,
                    label: label.to_vec(),
                });
            }
        }
    }
    grid
}

/// What the writer is lent, and the room of its output.
#[derive(Clone, Debug)]
pub struct Write {
    pub scheme: u64,
    pub rule: u32,
    pub label: Vec<u8>,
    pub room: usize,
}

/// Calls of the writer: good ones and such as are refused, in every order of two
/// faults and more.
pub fn writes() -> Vec<Write> {
    let schemes = [0, 1, 2, 3, 4, 5, 6, 7, 256, 4294967295];
    let rules = [14, 16, 0, 1, 13, 15, 17, 270, 4294967295];
    let labels: [&[u8]; 15] = [
        b"",
        b"A",
        b"Z9",
        b"0",
        b"STUDIO7",
        b"ABCDEFGHIJ012345",
        b"ABCDEFGHIJ0123456",
        b"a",
        b"ABCDEFGHIJ01234a",
        b" ",
        b"A\n",
        b"\0",
        b"@",
        b"[/:",
        b"\xff\xff\xff\xff\xff\xff\xff\xff\xff\xff\xff\xff\xff\xff\xff\xff\xff",
    ];
    let mut writes = vec![];
    for scheme in schemes {
        for rule in rules {
            for label in labels {
                // As many bytes as the answer would have, if there were one.
                let answer = write(&Settings {
                    scheme: scheme % 6,
                    rule: 14,
                    label: label.to_vec(),
                });
                for room in [0, answer.len() - 1, answer.len(), answer.len() + 9] {
                    writes.push(Write {
                        scheme,
                        rule,
                        label: label.to_vec(),
                        room,
                    });
                }
            }
        }
    }
    writes
}

/// One byte dropped, added or changed, at each place; and each beginning.
fn one_byte(stream: &mut Stream, good: &[u8]) -> Vec<Vec<u8>> {
    let mut texts = vec![];
    for at in 0..=good.len() {
        let (front, behind) = good.split_at(at);
        texts.push(front.to_vec());
        let any = stream.below(256) as u8;
        for byte in *b"\n0 A" {
            texts.push([front, &[byte], behind].concat());
        }
        texts.push([front, &[any], behind].concat());
        if let [old, behind @ ..] = behind {
            texts.push([front, behind].concat());
            for byte in [any, old ^ 1, old ^ 32, old ^ 128, b'\r', b'1', b'6'] {
                texts.push([front, &[byte], behind].concat());
            }
        }
    }
    texts
}

/// Lines left out, doubled, swapped, or ended in another way, and more behind the
/// last.
fn lines(good: &[u8]) -> Vec<Vec<u8>> {
    let lines: Vec<&[u8]> = good.split_inclusive(|&byte| byte == b'\n').collect();
    let mut texts = vec![];
    for at in 0..lines.len() {
        let (front, behind) = (lines[..at].concat(), lines[at + 1..].concat());
        let line = &lines[at][..lines[at].len() - 1];
        texts.push([&front[..], &behind].concat());
        texts.push([&front, lines[at], lines[at], &behind].concat());
        let ends: [&[u8]; 6] = [b"\r\n", b"\r", b"\n\n", b" \n", b"\0\n", b"\0"];
        for end in ends {
            texts.push([&front, line, end, &behind].concat());
        }
        for other in 0..at {
            let mut swapped = lines.clone();
            swapped.swap(at, other);
            texts.push(swapped.concat());
        }
    }
    let tails: [&[u8]; 6] = [b"\n", b"\0", b" ", b"label=A\n", b"label=\n", b"x=1\n"];
    for tail in tails {
        texts.push([good, tail].concat());
    }
    texts.push([good, good].concat());
    texts.push([b"\xef\xbb\xbf", good].concat());
    texts.push(good.to_ascii_uppercase());
    texts.push(good.to_ascii_lowercase());
    texts
}

/// What stands where a number should: also ten digits and more.
fn odd_numbers() -> Vec<String> {
    let plain = (0..=20).chain([
        100,
        140,
        141,
        161,
        255,
        256,
        262,
        270,
        272,
        4294967295,
        4294967296,
        4294967298,
        4294967300,
        4294967310,
        4294967312,
        9999999998,
        9999999999,
        10000000000,
        10000000002,
        99999999999,
        18446744073709551615,
    ]);
    let odd = [
        "",
        "00",
        "01",
        "02",
        "05",
        "014",
        "016",
        "0000000001",
        "0000000016",
        "00000000014",
        "18446744073709551616",
        "18446744073709551618",
        "340282366920938463463374607431768211458",
        "+1",
        "-1",
        "-0",
        " 2",
        "2 ",
        "2\t",
        "2.0",
        "2e0",
        "0x2",
        "a",
        "2a",
        "a2",
        "2\r",
        "2\0",
        "/",
        ":",
        "1/",
        "1:",
        "٢",
    ];
    let plain = plain.map(|number: u64| number.to_string());
    plain.chain(odd.map(str::to_string)).collect()
}

fn numbers() -> Vec<Vec<u8>> {
    let mut texts = vec![];
    for odd in odd_numbers() {
        for good in ["2", "5"] {
            texts.push(format!("format=1\nscheme={odd}\nrule=1{good}\n"));
            texts.push(format!("format=1\nscheme={odd}\nrule=14\n"));
            texts.push(format!("format=1\nscheme={good}\nrule={odd}\n"));
            texts.push(format!("format=2\nscheme={odd}\nrule=16\nlabel=A{good}\n"));
            texts.push(format!(
                "format=2\nscheme={good}\nrule={odd}\nlabel=A{good}\n"
            ));
        }
    }
    texts.into_iter().map(String::into_bytes).collect()
}

/// Every kind of first line with every kind of text behind it.
fn formats() -> Vec<Vec<u8>> {
    let behind = [
        "",
        "\n",
        "\0",
        "x",
        "scheme=4\nrule=16\n",
        "scheme=4\nrule=16\nlabel=A\n",
        "scheme=4\nrule=16\nlabel=A\nmore=1\n",
        "scheme=6\nrule=15\n",
        "format=1\nscheme=4\nrule=16\n",
        "lines of a later time\n\r\n\0\u{ff}",
    ];
    let mut texts = vec![];
    for odd in odd_numbers() {
        for name in ["format=", "Format=", "format", "format ="] {
            for end in ["\n", "", "\r\n", "\r", " \n"] {
                for behind in behind {
                    texts.push(format!("{name}{odd}{end}{behind}").into_bytes());
                }
            }
        }
    }
    texts
}

/// Labels of other lengths, and every byte in a label.
fn labels() -> Vec<Vec<u8>> {
    let with = |format: u8, label: &[u8]| {
        let front = format!("format={format}\nscheme=3\nrule=16\nlabel=");
        [front.as_bytes(), label, b"\n"].concat()
    };
    let mut texts = vec![];
    for format in 1..=3 {
        for length in 0..=2 * LABEL + 1 {
            texts.push(with(format, &vec![b'A'; length]));
            texts.push(with(format, &vec![b'7'; length]));
        }
        for byte in 0..=255 {
            texts.push(with(format, &[byte]));
            texts.push(with(format, &[b'X', byte, b'Y']));
            texts.push(with(
                format,
                &[[b'Q'; LABEL - 1].as_slice(), &[byte]].concat(),
            ));
        }
    }
    texts
}

/// Random bytes, and the parts of a good text at random.
fn random(stream: &mut Stream) -> Vec<Vec<u8>> {
    let parts: [&[u8]; 15] = [
        b"format=",
        b"scheme=",
        b"rule=",
        b"label=",
        b"\n",
        b"1",
        b"2",
        b"4",
        b"14",
        b"16",
        b"format=1\n",
        b"format=2\n",
        b"scheme=5\n",
        b"rule=14\n",
        b"label=Z\n",
    ];
    let mut texts = vec![];
    for round in 0..1500 {
        let bytes = (0..round % 67).map(|_| stream.below(256) as u8);
        texts.push(bytes.collect());
        let mut some = vec![];
        for _ in 0..=stream.below(8) {
            some.extend(parts[stream.below(15) as usize]);
        }
        texts.push(some);
    }
    texts
}
