//! The long list: its cases, and its refusals held to 01, by hand.

use crate::refusals::start;
use second::long::cases::{of_blank, of_exchange, of_slack, Case};
use second::long::good::Lists;
use second::long::input::Input;
use second::long::lines::checksum;
use second::long::noise;
use second::long::run::{lent, run as make};
use second::packing::unpack;
use second::schemes::{Family, FRODO_CHALLENGE, NEWHOPE, SIX};
use std::ops::Range;
use std::sync::OnceLock;

/// A line for each case.
fn lines() -> &'static [String] {
    static LINES: OnceLock<Vec<String>> = OnceLock::new();
    LINES.get_or_init(second::long::lines)
}

/// The lines of a call in a scheme that are counted: neither the wide case nor
/// the blank ones nor those of the slack.
fn of(call: &str, scheme: usize) -> Vec<&'static str> {
    starting(&format!("{call} scheme={scheme} case="))
        .into_iter()
        .filter(|line| under(line, "case").parse::<usize>().is_ok())
        .collect()
}

fn starting(start: &str) -> Vec<&'static str> {
    let lines = lines().iter().map(String::as_str);
    lines.filter(|line| line.starts_with(start)).collect()
}

/// What a line says under a name.
fn under<'a>(line: &'a str, name: &str) -> &'a str {
    let mut words = line.split(' ').filter_map(|word| word.split_once('='));
    words.find(|word| word.0 == name).unwrap().1
}

/// Refusal and place of each line.
fn told(lines: &[&str]) -> Vec<(u32, usize)> {
    let told = |line: &&str| {
        let number = under(line, "refusal").parse().unwrap();
        (number, under(line, "place").parse().unwrap())
    };
    lines.iter().map(told).collect()
}

const GOOD: (u32, usize) = (0, 0);
const LENGTH: (u32, usize) = (2, 0);

/// Rooms 0, r - 1, r + 1, r + 32.
const ROOMS: [(u32, usize); 4] = [(3, 0), (3, 0), GOOD, GOOD];

/// The value one below the bound passes, the two others do not.
fn numbers(number: u32, places: [usize; 3]) -> Vec<(u32, usize)> {
    let three = |place| [GOOD, (number, place), (number, place)];
    places.map(three).concat()
}

/// B and -B pass, the four others do not.
fn values(places: [usize; 3]) -> Vec<(u32, usize)> {
    let six = |at| [GOOD, GOOD, (6, at), (6, at), (6, at), (6, at)];
    places.map(six).concat()
}

const POLYNOMIAL: [usize; 3] = [0, 512, 1023];

#[test]
fn a_number_of_a_message_alone_is_changed() {
    for (scheme, start) in [(&NEWHOPE, 0), (&FRODO_CHALLENGE, 16)] {
        let packed = start..start + scheme.packed_bytes();
        let bytes = |input: &Input, part: Range<usize>| -> Vec<u8> {
            input.entries[part].iter().map(|&x| x as u8).collect()
        };
        for old in [0, 255] {
            let message = vec![old; packed.end + 9];
            let mut input = Input::message(scheme, start, message.clone());
            let mut expected = unpack(&bytes(&input, packed.clone()), scheme.width);
            for (index, number) in [(0, 1), (7, 1029), (expected.len() - 1, 1024)] {
                input.change(index, i64::from(number));
                expected[index] = number;
            }
            assert_eq!(
                unpack(&bytes(&input, packed.clone()), scheme.width),
                expected
            );
            assert_eq!(input.entries[..start], message[..start]);
            assert_eq!(input.entries[packed.end..packed.end + 9], [old; 9]);
            assert_eq!(input.entries[packed.end + 9..], [0; 32]);
        }
    }
}

#[test]
fn how_many_cases() {
    for scheme in 0..6 {
        let counts =
            ["offer", "reply", "finish", "bench", "noise"].map(|call| of(call, scheme).len());
        let expected = match scheme {
            // No seed: two lengths less in Offer and in Bench.
            0 => [71, 116, 51, 138, 56],
            1 => [73, 116, 51, 140, 31],
            // No coins: two less in Reply and in Bench.
            _ => [73, 114, 51, 138, 42],
        };
        assert_eq!(counts, expected);
    }
    // 26 by length and room, four with each of the eight words; then two with
    // each unknown rule.
    for rule in [14, 16] {
        assert_eq!(starting(&format!("expand rule={rule} ")).len(), 58);
    }
    assert_eq!(starting("expand ").len(), 128);
    for rule in [14, 16] {
        assert_eq!(starting(&format!("grow rule={rule} ")).len(), 17);
    }
    assert_eq!(starting("grow ").len(), 46);
    assert_eq!(starting("shake128 ").len(), 24);
    assert_eq!(starting("sha3_256 ").len(), 19);
    for (call, count) in BLANK {
        for scheme in 0..6 {
            let blank = starting(&format!("{call} scheme={scheme} case=blank"));
            assert_eq!(blank.len(), count);
        }
    }
    for scheme in 0..6 {
        let slack = starting(&format!("finish scheme={scheme} case=slack"));
        assert_eq!(slack.len(), 3);
    }
    assert_eq!(lines().len(), 2930);
}

#[test]
fn refused_outputs_are_zero_over_their_whole_room() {
    // Reply in NewHope: rooms of the message are cases 25 to 28, of the key 29
    // to 32, of the digest 33 to 36; case 1 has an empty opening.
    let lines = of("reply", 1);
    let outputs = ["message", "key", "digest"];
    let sums = |case: usize| outputs.map(|output| under(lines[case], output));
    let zeros = |rooms: [usize; 3]| rooms.map(|room| checksum(&vec![0; room]).to_string());
    assert_eq!(sums(1), zeros([2048, 32, 32]));
    assert_eq!(sums(25), zeros([0, 32, 32]));
    assert_eq!(sums(26), zeros([2047, 32, 32]));
    assert_eq!(sums(29), zeros([2048, 0, 32]));
    assert_eq!(sums(30), zeros([2048, 31, 32]));
    assert_eq!(sums(33), zeros([2048, 32, 0]));
    assert_eq!(sums(34), zeros([2048, 32, 31]));
    assert_eq!(under(lines[25], "message"), "1");
    for case in [1, 25, 26, 29, 30, 33, 34] {
        for output in outputs {
            assert_eq!(under(lines[case], &format!("{output}_written")), "0");
        }
    }
}

#[test]
fn offer() {
    let seven = [(1, 0), LENGTH, (3, 0), (4, 512), (6, 0), (6, 0), (6, 1)];
    let expected = [
        vec![GOOD],
        vec![LENGTH; 16],
        ROOMS.to_vec(),
        numbers(4, POLYNOMIAL),
        values(POLYNOMIAL),
        values(POLYNOMIAL),
        seven.to_vec(),
    ];
    assert_eq!(told(&of("offer", 1)), expected.concat());
}

#[test]
fn reply() {
    // Among faulty values a's come first, then the message's.
    let seven = [(1, 0), LENGTH, (3, 0), (4, 512), (5, 512), (6, 0), (6, 1)];
    let expected = [
        vec![GOOD],
        vec![LENGTH; 24],
        ROOMS.repeat(3),
        numbers(5, POLYNOMIAL),
        numbers(4, POLYNOMIAL),
        values(POLYNOMIAL).repeat(3),
        seven.to_vec(),
    ];
    assert_eq!(told(&of("reply", 1)), expected.concat());
    assert_eq!(told(&of("reply", 0)), expected.concat());
}

#[test]
fn reply_in_frodo() {
    // A has 352 times 352 numbers, S' 352 times 8; refusal 5 can't arise.
    let secrets = [0, 1408, 2815];
    let seven = [(1, 0), LENGTH, (3, 0), (4, 61952), (6, 0), (6, 0), (6, 1)];
    let expected = [
        vec![GOOD],
        vec![LENGTH; 22],
        ROOMS.repeat(3),
        vec![GOOD; 9],
        numbers(4, [0, 61952, 123903]),
        values(secrets).repeat(2),
        values([0, 32, 63]),
        seven.to_vec(),
    ];
    assert_eq!(told(&of("reply", 2)), expected.concat());
}

#[test]
fn finish() {
    // It has no a, and only one input of secrets.
    let seven = [(1, 0), LENGTH, (3, 0), (5, 512), (5, 512), (6, 0), GOOD];
    let expected = [
        vec![GOOD],
        vec![LENGTH; 8],
        ROOMS.repeat(2),
        numbers(5, POLYNOMIAL),
        values(POLYNOMIAL),
        seven.to_vec(),
    ];
    assert_eq!(told(&of("finish", 1)), expected.concat());
    assert_eq!(told(&of("finish", 0)), expected.concat());
}

#[test]
fn bench() {
    // It has no outputs and no messages.
    let seven = [(1, 0), LENGTH, (4, 512), (4, 512), (6, 0), (6, 0), (6, 1)];
    let expected = [
        vec![GOOD],
        vec![LENGTH; 32],
        numbers(4, POLYNOMIAL),
        values(POLYNOMIAL).repeat(5),
        seven.to_vec(),
        vec![(6, 1)],
    ];
    let lines = of("bench", 1);
    assert_eq!(told(&lines), expected.concat());
    for line in lines.iter().filter(|line| !line.contains(" refusal=0 ")) {
        assert_eq!(under(line, "differ"), "0");
    }
}

#[test]
fn a_fault_of_offer_comes_before_one_of_reply() {
    for (number, scheme) in SIX.iter().enumerate() {
        assert_eq!(told(&of("bench", number)).last(), Some(&(6, 1)));

        let good = Lists::drawn(scheme).bench();
        let cases = of_exchange(&good);
        let both = cases.last().unwrap();
        let mut lengths = good.case().lengths;
        lengths[7] = scheme.coin_bytes() + 1;
        assert_eq!(both.lengths, lengths);
        let [change] = both.changes[..] else { panic!() };
        let beyond = scheme.largest_noise as i64 + 1;
        assert_eq!((change.input, change.index, change.value), (2, 1, beyond));

        // Without the fault in e the one in the coins is told, so it is there.
        let coins = Case {
            changes: vec![],
            ..both.clone()
        };
        let refusal = make(&good, &coins).refusal.unwrap();
        assert_eq!((refusal.number, refusal.place), LENGTH);
    }
}

/// How many blank cases each call has in a scheme.
const BLANK: [(&str, usize); 4] = [("offer", 5), ("reply", 11), ("finish", 6), ("bench", 4)];

#[test]
fn blank() {
    let blank = (17, 0);
    for (number, scheme) in SIX.iter().enumerate() {
        let middle = scheme.public_count() / 2;
        let [last, last_e2] = [scheme.noise_count() - 1, scheme.last_noise_count() - 1];
        let expected = [
            vec![GOOD, GOOD, blank, (4, middle), (6, last)],
            vec![
                blank,
                GOOD,
                GOOD,
                GOOD,
                blank,
                (4, middle),
                GOOD,
                GOOD,
                blank,
                (6, last_e2),
                blank,
            ],
            vec![blank, GOOD, GOOD, GOOD, blank, LENGTH],
            vec![blank, blank, GOOD, blank],
        ];
        for ((call, _), expected) in BLANK.into_iter().zip(expected) {
            let lines = starting(&format!("{call} scheme={number} case=blank"));
            assert_eq!(told(&lines), expected);
        }
    }
}

#[test]
fn a_blank_message_keeps_seed_and_hints() {
    for (scheme, start) in [(&NEWHOPE, 0), (&FRODO_CHALLENGE, 16)] {
        let end = start + scheme.packed_bytes();
        let mut input = Input::message(scheme, start, vec![7; end + 9]);
        input.zero();
        assert_eq!(input.entries[..start], [7; 16][..start]);
        assert!(input.entries[start..end].iter().all(|&byte| byte == 0));
        assert_eq!(input.entries[end..end + 9], [7; 9]);
    }
}

#[test]
fn one_byte_of_a_blank_message_is_1() {
    for scheme in &SIX {
        let lists = Lists::drawn(scheme);
        let m = scheme.packed_bytes();
        let calls = [
            (lists.reply(vec![3; scheme.opening_bytes()]), start(scheme)),
            (lists.finish(vec![3; scheme.reply_bytes()]), 0),
        ];
        for (good, start) in calls {
            let cases = of_blank(&good);
            for (case, at) in cases[1..4].iter().zip([0, m / 2, m - 1]) {
                let mut expected = vec![3; good.inputs[0].n];
                expected[start..start + m].fill(0);
                expected[start + at] = 1;
                assert_eq!(lent(&good, case)[0], expected);
            }
        }
    }
}

#[test]
fn slack_is_told_where_there_is_one() {
    for line in starting("finish ").into_iter().chain(starting("bench ")) {
        let [number, slack, index] = ["refusal", "slack", "slack_index"]
            .map(|name| under(line, name).parse::<u64>().unwrap());
        let scheme = &SIX[under(line, "scheme").parse::<usize>().unwrap()];
        let (most, entries) = match scheme.family {
            Family::Bcns => (1 << 30, 1024),
            Family::NewHope => (0, 1),
            Family::Frodo => ((scheme.q as u64 >> scheme.b.unwrap()) / 4, 64),
        };
        assert!(slack <= most && index < entries, "{line}");
        if number != 0 {
            assert_eq!((slack, index), (0, 0), "{line}");
        }
    }
}

#[test]
fn hints_that_the_replier_did_not_send() {
    for (number, scheme) in SIX.iter().enumerate() {
        let lists = Lists::drawn(scheme);
        let good = lists.finish((0..scheme.reply_bytes()).map(|i| i as i64 % 256).collect());
        let start = scheme.packed_bytes();
        let before = &good.inputs[0].entries;
        for (case, hints) in of_slack(&good).iter().zip(0..) {
            let reply = &lent(&good, case)[0];
            assert_eq!(reply.len(), scheme.reply_bytes());
            assert_eq!(reply[..start], before[..start]);
            for (other, byte) in reply[start..].iter().zip(&before[start..]) {
                assert_eq!(*other, [255 - byte, 0, 255][hints]);
            }
        }
        // They are accepted, and far from the replier's value.
        let lines = starting(&format!("finish scheme={number} case=slack"));
        assert_eq!(told(&lines), [GOOD; 3]);
        for line in lines {
            let slack: u64 = under(line, "slack").parse().unwrap();
            assert_eq!(slack == 0, scheme.family == Family::NewHope);
        }
    }
}

#[test]
fn bench_passes_finishs_slack_on() {
    for scheme in 0..6 {
        for case in ["0", "wide"] {
            let one = |call: &str| starting(&format!("{call} scheme={scheme} case={case} "))[0];
            for name in ["slack", "slack_index"] {
                assert_eq!(under(one("bench"), name), under(one("finish"), name));
            }
        }
    }
}

#[test]
fn noise() {
    let expected = [
        vec![GOOD],
        vec![LENGTH; 4],
        ROOMS.to_vec(),
        vec![LENGTH, (1, 0)],
    ]
    .concat();
    // An empty table alone is right, and with room 0 it is 3; a faulty one is
    // a table all the same.
    let no_table = [
        vec![GOOD],
        vec![LENGTH; 6],
        vec![(3, 0)],
        vec![LENGTH; 6],
        vec![LENGTH; 5],
        vec![(1, 0)],
    ]
    .concat();
    assert_eq!(
        told(&of("noise", 1)),
        [expected.clone(), no_table.clone()].concat()
    );
    for (scheme, fixed) in SIX.iter().enumerate().skip(2) {
        let lines = of("noise", scheme);
        let both = [expected.repeat(2), no_table.clone()];
        assert_eq!(told(&lines), both.concat());
        assert_eq!(under(lines[0], "written"), (8 * fixed.n).to_string());
        assert_eq!(under(lines[11], "written"), "64");
    }

    // 153 words alone are right; 1, 2 and 3 come before 18.
    let lengths = |right| [LENGTH, LENGTH, LENGTH, LENGTH, right, LENGTH, LENGTH];
    let faulty = [(18, 25), (3, 0), LENGTH, LENGTH, LENGTH, (1, 0)];
    let edges = [GOOD, GOOD, GOOD, (18, 1), (18, 25)];
    // equal, in each other's place, one less: each is refused; one more is not
    let places = [1, 24, 25, 26, 50].map(|p| [(18, p), (18, p), (18, p), GOOD]);
    let bcns = [
        expected,
        lengths(GOOD).to_vec(),
        lengths((3, 0)).to_vec(),
        faulty.to_vec(),
        edges.to_vec(),
        places.concat(),
    ];
    assert_eq!(told(&of("noise", 0)), bcns.concat());
}

/// The table of the cases ascends, and its words are those that were drawn; the
/// edges count what they should, by the numbers themselves.
#[test]
fn the_table_and_its_edges() {
    let table = noise::table();
    let entries: Vec<[u64; 3]> = table
        .chunks_exact(3)
        .map(|entry| [entry[0], entry[1], entry[2]])
        .collect();
    assert_eq!(entries.len(), 51);
    assert!(entries.windows(2).all(|pair| pair[0] < pair[1]));
    for k in 0..51 {
        assert_eq!(entries[k][0], entries[k / 4 * 4][0]);
        assert_eq!(entries[k][1], entries[k / 2 * 2][1]);
        assert_eq!(entries[k][0] >> 60, k as u64 / 4 + 1);
        assert_eq!(entries[k][1] >> 63, k as u64 / 2 % 2);
        assert_eq!(entries[k][2] >> 63, k as u64 % 2);
    }
    // 19 times 48271 times 10 is 9171490, and the next state is 182605794 times 10.
    assert_eq!(
        entries[0][0],
        (1 << 60) + ((9171490 << 32) + below(34695100860)) / 16
    );

    let bytes = noise::edges(&[7; 25600]);
    assert_eq!(bytes[25 * 718..], [7; 25 * (1024 - 718)]);
    let values = second::noise::values(&SIX[0], &bytes, &table);
    for (i, &value) in values[..714].iter().enumerate() {
        let k = i as i32 / 14;
        // only the lowest word is the entry's own: another entry may lie between
        let size = match i / 2 % 7 {
            0 | 2 => k + 1,
            1 => k,
            _ => continue,
        };
        assert_eq!(value, if i % 2 == 1 { -size } else { size }, "{i}");
    }
    assert_eq!(values[714..718], [0, 0, 51, -51]);
}

/// A draw as it comes below 4294967295.
fn below(draw: u64) -> u64 {
    draw % 4294967295
}

const NO_RULES: [u32; 6] = [0, 1, 13, 15, 17, 4294967295];

#[test]
fn expand() {
    for rule in [14, 16] {
        let told = told(&starting(&format!("expand rule={rule} ")));
        // 0 or 1 byte, then 65536, 65537 and 65600.
        assert_eq!(told[..2], [(7, 0); 2]);
        assert_eq!(told[16..19], [GOOD, LENGTH, LENGTH]);
        assert_eq!(told[19..23], ROOMS);
        // 65537 with no room; 50 words with too little room, then with enough.
        assert_eq!(told[23..25], [LENGTH, (3, 0)]);
        assert_eq!(told[25], told[3]);
        assert_eq!(told[25].0, 7);
    }
    // The two lengths that just suffice, and one byte less.
    let by_14 = told(&starting("expand rule=14 "));
    assert_eq!(by_14[11..13], [(7, 1023), GOOD]);
    let by_16 = told(&starting("expand rule=16 "));
    assert_eq!(by_16[7..9], [(7, 1023), GOOD]);
    for rule in NO_RULES {
        let told = told(&starting(&format!("expand rule={rule} ")));
        assert_eq!(told, [(12, 0); 2]);
    }
}

#[test]
fn grow() {
    let expected = [vec![GOOD; 8], vec![LENGTH; 4], ROOMS.to_vec(), vec![LENGTH]];
    for rule in [14, 16] {
        let told = told(&starting(&format!("grow rule={rule} ")));
        assert_eq!(told, expected.concat());
    }
    for rule in NO_RULES {
        let told = told(&starting(&format!("grow rule={rule} ")));
        assert_eq!(told, [(12, 0); 2]);
    }
}

#[test]
fn hashes() {
    let shake128 = [vec![GOOD; 14], vec![LENGTH], vec![GOOD; 9]];
    assert_eq!(told(&starting("shake128 ")), shake128.concat());
    let sha3_256 = [vec![GOOD; 13], vec![LENGTH], ROOMS.to_vec(), vec![LENGTH]];
    assert_eq!(told(&starting("sha3_256 ")), sha3_256.concat());
    let written = |line: &str| under(line, "written").parse().unwrap();
    let counts: Vec<usize> = starting("shake128 ").into_iter().map(written).collect();
    assert_eq!(counts[15..], [0, 1, 32, 167, 168, 169, 336, 337, 4032]);
}

#[test]
fn words_at_the_bounds() {
    // -1 where the word is passed over.
    let by_14 = [12288, -1, -1, 0, 12288, -1, -1, -1];
    let by_16 = [12288, 0, 4094, 4095, 12284, 12288, -1, -1];
    for (rule, numbers) in [(14, by_14), (16, by_16)] {
        let lines = starting(&format!("expand rule={rule} "));
        for (four, number) in lines[26..].chunks_exact(4).zip(numbers) {
            // 1024 words are 2048 bytes.
            let refusals = match number {
                -1 => [(7, 0); 4],
                _ => [(7, 1023), (7, 1023), GOOD, GOOD],
            };
            assert_eq!(told(four), refusals);
            let sum = checksum(&[number.max(0); 1024]).to_string();
            assert_eq!(under(four[2], "numbers"), sum);
        }
    }
}

#[test]
fn both_ends_have_the_key_where_bench_agrees() {
    for scheme in 0..6 {
        for case in ["0", "wide"] {
            let one = |call: &str| starting(&format!("{call} scheme={scheme} case={case} "))[0];
            for output in ["key", "digest"] {
                let same = under(one("reply"), output) == under(one("finish"), output);
                assert_eq!(under(one("bench"), "differ") == "0", same);
            }
        }
    }
}
