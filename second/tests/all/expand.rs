use crate::generator::Generator;
use second::calls::expand;
use second::refusal::refusal;

const RULES: [u32; 2] = [14, 16];

/// The bytes of 16-bit little-endian words.
fn stream(words: &[u16]) -> Vec<u8> {
    words.iter().flat_map(|word| word.to_le_bytes()).collect()
}

#[test]
fn an_empty_stream() {
    for rule in RULES {
        let mut output = [7; 1024];
        assert_eq!(expand(rule, &[], &mut output), Err(refusal(7, 0)));
        assert_eq!(output, [0; 1024]);
    }
}

#[test]
fn exactly_1024_words() {
    let words: Vec<u16> = (0..1024).collect();
    for rule in RULES {
        let mut output = [7; 1030];
        assert_eq!(expand(rule, &stream(&words), &mut output), Ok(1024));
        assert_eq!(output[..1024], (0..1024).collect::<Vec<u32>>());
        assert_eq!(output[1024..], [0; 6]);
    }
}

// 12289 times 4 is 49156, and times 5 is 61445; 16384 times 3 is 49152.
#[test]
fn one_word_again_and_again() {
    for (word, by_14, by_16) in [
        (12288, Some(12288), Some(12288)),
        (12289, None, Some(0)),
        (16383, None, Some(4094)),
        (16384, Some(0), Some(4095)),
        (49152, Some(0), Some(12285)),
        (49156, Some(4), Some(0)),
        (61440, Some(12288), Some(12284)),
        (61444, None, Some(12288)),
        (61445, None, None),
        (65535, None, None),
    ] {
        for (rule, number) in [(14, by_14), (16, by_16)] {
            let mut output = [7; 1024];
            let enough = expand(rule, &stream(&[word; 1024]), &mut output);
            match number {
                Some(number) => assert_eq!((enough, output), (Ok(1024), [number; 1024])),
                None => assert_eq!((enough, output), (Err(refusal(7, 0)), [0; 1024])),
            }
            let one_less = expand(rule, &stream(&[word; 1023]), &mut output);
            let accepted = number.map_or(0, |_| 1023);
            assert_eq!(one_less, Err(refusal(7, accepted)));
            assert_eq!(output, [0; 1024]);
        }
    }
}

#[test]
fn the_low_14_bits_are_taken() {
    let mut words = vec![0x0003; 1024];
    words[0] = 0xC005;
    words[1] = 0x8000 + 12288;
    words[2] = 0x4000;
    let mut output = [7; 1024];
    assert_eq!(expand(14, &stream(&words), &mut output), Ok(1024));
    assert_eq!(output[..4], [5, 12288, 0, 3]);
}

#[test]
fn low_bits_from_12289_are_passed_over() {
    let mut words = vec![12289, 12288, 16383, 0xFFFF, 0x4000 + 12289, 9];
    words.extend([1; 1022]);
    let mut output = [7; 1024];
    assert_eq!(expand(14, &stream(&words), &mut output), Ok(1024));
    assert_eq!(output[..3], [12288, 9, 1]);
    let short = stream(&words[..words.len() - 1]);
    assert_eq!(expand(14, &short, &mut output), Err(refusal(7, 1023)));
    assert_eq!(output, [0; 1024]);
}

#[test]
fn whole_words_from_61445_are_passed_over() {
    let mut words = vec![61445, 61444, 65535, 24578, 61446, 12289, 30000];
    words.extend([1; 1020]);
    let mut output = [7; 1024];
    assert_eq!(expand(16, &stream(&words), &mut output), Ok(1024));
    assert_eq!(output[..5], [12288, 0, 0, 5422, 1]);
    let short = stream(&words[..words.len() - 1]);
    assert_eq!(expand(16, &short, &mut output), Err(refusal(7, 1023)));
    assert_eq!(output, [0; 1024]);
}

#[test]
fn an_odd_last_byte_is_unused() {
    for rule in RULES {
        let mut bytes = stream(&[1; 1023]);
        bytes.push(1);
        let mut output = [7; 1024];
        assert_eq!(expand(rule, &bytes, &mut output), Err(refusal(7, 1023)));
        bytes.push(0);
        assert_eq!(expand(rule, &bytes, &mut output), Ok(1024));
        bytes.push(0xFF);
        assert_eq!(expand(rule, &bytes, &mut output), Ok(1024));
        assert_eq!(output, [1; 1024]);
        assert_eq!(expand(rule, &[1], &mut output), Err(refusal(7, 0)));
    }
}

#[test]
fn further_words_are_unread() {
    let mut generator = Generator::new(11);
    let mut bytes = stream(&[8191; 1024]);
    bytes.extend(generator.bytes(65536 - 2048));
    for rule in RULES {
        let mut output = [7; 1024];
        assert_eq!(expand(rule, &bytes, &mut output), Ok(1024));
        assert_eq!(output, [8191; 1024]);
    }
}

#[test]
fn the_longest_stream_is_65536() {
    // 06 F0 is the word 61446, its low bits 12294: taken by neither rule.
    for rule in RULES {
        let mut output = [7; 1024];
        assert_eq!(expand(rule, &[0; 65536], &mut output), Ok(1024));
        let none = [0xFF; 65536];
        assert_eq!(expand(rule, &none, &mut output), Err(refusal(7, 0)));
        let mut output = [7; 1024];
        assert_eq!(expand(rule, &[0; 65537], &mut output), Err(refusal(2, 0)));
        assert_eq!(output, [0; 1024]);
        let mut late = none;
        late[65536 - 2048..].fill(0);
        assert_eq!(expand(rule, &late, &mut output), Ok(1024));
        late[65536 - 2048] = 0x06;
        late[65536 - 2047] = 0xF0;
        assert_eq!(expand(rule, &late, &mut output), Err(refusal(7, 1023)));
    }
}

#[test]
fn a_short_output() {
    for rule in RULES {
        for room in [0, 1, 1023] {
            for length in [0, 2048, 65536] {
                let mut output = vec![7; room];
                let answer = expand(rule, &vec![0; length], &mut output);
                assert_eq!(answer, Err(refusal(3, 0)));
                assert_eq!(output, vec![0; room]);
            }
            let answer = expand(rule, &vec![0; 65537], &mut vec![7; room]);
            assert_eq!(answer, Err(refusal(2, 0)));
        }
    }
}

#[test]
fn an_unknown_rule_comes_first() {
    for rule in [0, 1, 13, 15, 17, 4294967295] {
        // good; the stream runs out; too long; no room; too long and no room.
        for (length, room) in [
            (2048, 1024),
            (0, 1030),
            (65537, 1024),
            (2048, 0),
            (65537, 0),
        ] {
            let mut output = vec![7; room];
            let answer = expand(rule, &vec![0; length], &mut output);
            assert_eq!(answer, Err(refusal(12, 0)));
            assert_eq!(output, vec![0; room]);
        }
    }
}

#[test]
fn random_streams_word_by_word() {
    let mut generator = Generator::new(12);
    for length in [2, 1000, 2046, 2150, 2700, 2800, 4096, 4097] {
        let bytes = generator.bytes(length);
        let mut expected: [Vec<u32>; 2] = [vec![], vec![]];
        for k in 0..length / 2 {
            let word = u16::from_le_bytes([bytes[2 * k], bytes[2 * k + 1]]);
            let low = u32::from(word & 0x3FFF);
            if low <= 12288 && expected[0].len() < 1024 {
                expected[0].push(low);
            }
            let mut whole = u32::from(word);
            if whole <= 61444 && expected[1].len() < 1024 {
                while whole > 12288 {
                    whole -= 12289;
                }
                expected[1].push(whole);
            }
        }
        for (rule, expected) in RULES.iter().zip(expected) {
            let mut output = [7; 1024];
            let answer = expand(*rule, &bytes, &mut output);
            if expected.len() == 1024 {
                assert_eq!(answer, Ok(1024));
                assert_eq!(output[..], expected);
            } else {
                assert_eq!(answer, Err(refusal(7, expected.len())));
                assert_eq!(output, [0; 1024]);
            }
        }
    }
}
