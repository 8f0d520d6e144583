//! `second vectors` held to docs/VECTORS.md, and its refusals to 01, by hand.

use crate::program::run;
use second::long::lines::checksum;
use second::schemes::SIX;
use second::vectors::draw::{drawn, Entries, Stream};
use std::sync::OnceLock;

/// What the program prints.
fn lines() -> &'static [String] {
    static LINES: OnceLock<Vec<String>> = OnceLock::new();
    LINES.get_or_init(|| {
        let output = run(&["vectors"], b"");
        assert!(output.status.success());
        let text = String::from_utf8(output.stdout).unwrap();
        text.lines().map(str::to_string).collect()
    })
}

fn starting(start: &str) -> Vec<&'static str> {
    let lines = lines().iter().map(String::as_str);
    lines.filter(|line| line.starts_with(start)).collect()
}

/// What a line says under a name.
fn under<'a>(line: &'a str, name: &str) -> &'a str {
    let mut words = line.split(' ').filter_map(|word| word.split_once('='));
    words.find(|word| word.0 == name).unwrap().1
}

/// Refusal and place of each line of a call.
fn told(start: &str) -> Vec<(u32, usize)> {
    let told = |line: &str| {
        let number = under(line, "refusal").parse().unwrap();
        (number, under(line, "place").parse().unwrap())
    };
    starting(start).into_iter().map(told).collect()
}

const GOOD: (u32, usize) = (0, 0);
const BLANK: (u32, usize) = (17, 0);

/// The last three of the ten cases: the rooms, the lengths, the scheme.
const SHORT: (u32, usize) = (3, 0);
const LENGTH: (u32, usize) = (2, 0);
const SCHEME: (u32, usize) = (1, 0);
const RULE: (u32, usize) = (12, 0);

// The first states of the stream are known from the literature: 48271,
// 182605794, 1291394886, 1914720637.

#[test]
fn draws() {
    let mut stream = Stream::new(1);
    let far = 1 << 40;
    let draws = [0; 4].map(|_| stream.below(far));
    assert_eq!(draws, [917149, 3469510086, 24536502834, 36379692103]);
    let q = 4294967295;
    let public = drawn(1, Entries::PublicNumbers { q }, 4);
    assert_eq!(public, [917149, 3469510086, 3061666359, 2019953743]);
    assert_eq!(drawn(1, Entries::Bytes, 4), [157, 198, 50, 71]);
    assert_eq!(drawn(1, Entries::ValuesOfAtMost(3), 4), [-1, -3, 1, 3]);
    assert_eq!(drawn(1, Entries::ValuesOfAtMost(1), 4), [0, -1, -1, 0]);
    // 48271 times 901 is 43492171.
    assert_eq!(drawn(901, Entries::Bytes, 1), [826351249 % 256]);
}

#[test]
fn nineteen_divides_no_bound_of_a_draw() {
    for scheme in &SIX {
        for m in [scheme.q, 256, 3, 2 * scheme.largest_noise + 1] {
            assert_ne!(m % 19, 0);
        }
    }
}

#[test]
fn checksums() {
    assert_eq!(checksum(&[]), 1);
    assert_eq!(checksum(&[5]), 65604);
    assert_eq!(checksum(&[0, 0]), 8261510);
    assert_eq!(checksum(&[165, 165]), 19085510);
    // 65599 + 2^32 - 1 is 65603 more than 4294967291.
    assert_eq!(checksum(&[-1]), 65603);
    assert_eq!(checksum(&[4294967295]), 65603);
}

#[test]
fn the_order_of_the_lines() {
    let mut expected = vec![];
    let five = ["offer", "reply", "finish", "bench", "noise"];
    for scheme in 0..6 {
        for call in five {
            expected.extend((0..10).map(|case| format!("{call} scheme={scheme} case={case} ")));
        }
        expected.extend(five.map(|call| format!("{call} scheme={scheme} case=10 ")));
    }
    for call in [
        "expand rule=14",
        "expand rule=16",
        "grow rule=14",
        "grow rule=16",
    ] {
        expected.extend((0..10).map(|case| format!("{call} case={case} ")));
    }
    for call in ["shake128", "sha3_256"] {
        expected.extend((0..10).map(|case| format!("{call} case={case} ")));
    }
    assert_eq!(expected.len(), 390);
    assert_eq!(lines().len(), expected.len());
    for (line, start) in lines().iter().zip(&expected) {
        assert!(line.starts_with(start), "{line}");
    }
}

#[test]
fn the_form_of_a_line() {
    for start in [
        "offer scheme=1 case=0 refusal=0 place=0 written=1824 message=",
        "reply scheme=1 case=0 refusal=0 place=0 message_written=2048 key_written=32 \
         digest_written=32 message=",
        "finish scheme=1 case=0 refusal=0 place=0 key_written=32 digest_written=32 slack=0 \
         slack_index=0 key=",
        "bench scheme=1 case=0 refusal=0 place=0 differ=0 slack=0 slack_index=0",
        "noise scheme=1 case=0 refusal=0 place=0 written=1024 values=",
        "noise scheme=5 case=10 refusal=0 place=0 written=64 values=",
        "grow rule=14 case=0 refusal=0 place=0 written=1024 numbers=",
        "shake128 case=7 refusal=0 place=0 written=31 bytes=",
        "sha3_256 case=0 refusal=0 place=0 written=32 bytes=",
        "offer scheme=5 case=10 refusal=0 place=0 written=12976 message=",
    ] {
        assert_eq!(starting(start).len(), 1, "{start}");
    }
    let zeros = checksum(&[0; 1023]);
    let whole = format!("expand rule=14 case=7 refusal=3 place=0 written=0 numbers={zeros}");
    assert_eq!(starting("expand rule=14 case=7 "), [whole]);
}

#[test]
fn each_fault_comes_before_those_before_it() {
    for (k, scheme) in SIX.iter().enumerate() {
        let middle = scheme.public_count() / 2;
        // Refusal 5 can't arise in Frodo.
        let over = |place| if k < 2 { (5, 512) } else { (6, place) };
        let public = (4, middle);
        let ten = [
            (
                "offer",
                [
                    BLANK,
                    (6, 40),
                    (6, 40),
                    (6, 40),
                    public,
                    SHORT,
                    LENGTH,
                    SCHEME,
                ],
            ),
            (
                "reply",
                [
                    BLANK,
                    (6, 20),
                    BLANK,
                    over(20),
                    public,
                    SHORT,
                    LENGTH,
                    SCHEME,
                ],
            ),
            (
                "finish",
                [
                    GOOD,
                    (6, 40),
                    BLANK,
                    over(40),
                    over(40),
                    SHORT,
                    LENGTH,
                    SCHEME,
                ],
            ),
            (
                "bench",
                [
                    BLANK,
                    (6, 40),
                    (6, 40),
                    (6, 40),
                    public,
                    public,
                    LENGTH,
                    SCHEME,
                ],
            ),
            (
                "noise",
                [
                    GOOD,
                    GOOD,
                    GOOD,
                    GOOD,
                    if k == 0 { (18, 25) } else { GOOD },
                    SHORT,
                    LENGTH,
                    SCHEME,
                ],
            ),
        ];
        for (call, faulty) in ten {
            let expected = [&[GOOD; 2], &faulty[..], &[GOOD]].concat();
            assert_eq!(told(&format!("{call} scheme={k} ")), expected, "{call} {k}");
        }
    }
}

#[test]
fn calls_without_a_scheme() {
    for (rule, taken) in [(14, 771), (16, 944)] {
        let expand = [&[GOOD; 2], &[(7, taken); 5][..], &[SHORT, LENGTH, RULE]].concat();
        assert_eq!(told(&format!("expand rule={rule} ")), expand);
        let grow = [&[GOOD; 7], &[SHORT, LENGTH, RULE][..]].concat();
        assert_eq!(told(&format!("grow rule={rule} ")), grow);
    }
    assert_eq!(told("shake128 "), [&[GOOD; 8], &[LENGTH; 2][..]].concat());
    let sha3 = [&[GOOD; 7], &[SHORT, LENGTH, LENGTH][..]].concat();
    assert_eq!(told("sha3_256 "), sha3);
}

#[test]
fn refused_outputs_are_zero_over_their_whole_room() {
    let sum = |length| checksum(&vec![0; length]).to_string();
    for (case, more) in [(2, 32), (6, 32), (7, -1), (9, -1)] {
        let line = starting(&format!("reply scheme=1 case={case} "))[0];
        for (output, answer) in [("message", 2048), ("key", 32), ("digest", 32)] {
            assert_eq!(under(line, output), sum((answer + more) as usize), "{line}");
        }
    }
}

#[test]
fn both_ends_have_the_key_where_bench_agrees() {
    for scheme in 0..6 {
        for case in [0, 10] {
            let one = |call: &str| starting(&format!("{call} scheme={scheme} case={case} "))[0];
            for output in ["key", "digest"] {
                let same = under(one("reply"), output) == under(one("finish"), output);
                assert_eq!(under(one("bench"), "differ") == "0", same);
            }
            for name in ["slack", "slack_index"] {
                assert_eq!(under(one("bench"), name), under(one("finish"), name));
            }
        }
    }
}
