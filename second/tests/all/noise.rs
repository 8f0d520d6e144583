use crate::generator::Generator;
use second::calls;
use second::noise::{bcns, entries, frodo, lengths, newhope, table_words, values};
use second::refusal::refusal;
use second::schemes::{Family, Scheme, SIX};
use second::table::{lines, pi, read, table};

#[test]
fn newhope_counts_ones() {
    assert_eq!(newhope(&[0xFF, 0xFF, 0x00, 0x00]), 16);
    assert_eq!(newhope(&[0x00, 0x00, 0xFF, 0xFF]), -16);
    assert_eq!(newhope(&[0x01, 0x00, 0x03, 0x00]), -1);
    assert_eq!(newhope(&[0x00, 0x80, 0x00, 0x00]), 1);
    for word in 0..=u16::MAX {
        let [low, high] = word.to_le_bytes();
        let ones = word.count_ones() as i32;
        assert_eq!(newhope(&[low, high, 0, 0]), ones);
        assert_eq!(newhope(&[0, 0, low, high]), -ones);
        assert_eq!(newhope(&[low, high, low, high]), 0);
    }
}

#[test]
fn d3_words() {
    assert_eq!(frodo(&SIX[4], 1205), 0);
    assert_eq!(frodo(&SIX[4], 1206), 1);
    assert_eq!(frodo(&SIX[4], 4095), -5);
}

/// How often each size comes among all t.
fn sizes(scheme: usize, bits: u32) -> Vec<usize> {
    let mut counts = vec![0; 1 + SIX[scheme].largest_noise as usize];
    for t in 0..1u32 << bits {
        counts[frodo(&SIX[scheme], 2 * t) as usize] += 1;
    }
    counts
}

#[test]
fn the_size_counts_thresholds() {
    // Each count is the gap between one threshold and the next.
    assert_eq!(sizes(2, 7), [44, 61, 20, 3]);
    assert_eq!(sizes(3, 11), [785, 990, 248, 24, 1]);
    assert_eq!(sizes(4, 11), [603, 919, 406, 104, 15, 1]);
    assert_eq!(sizes(5, 15), [9652, 14701, 6490, 1659, 245, 20, 1]);
}

#[test]
fn the_lowest_bit_is_the_sign_and_higher_bits_are_ignored() {
    for (scheme, bits) in [(2, 7), (3, 11), (4, 11), (5, 15)] {
        let s = &SIX[scheme];
        for word in 0..1u32 << 16 {
            let value = frodo(s, word);
            assert_eq!(frodo(s, word ^ 1), -value);
            assert_eq!(frodo(s, word % (2 << bits)), value);
            assert!(i128::from(value).abs() <= s.largest_noise);
            assert!(value == 0 || (value < 0) == (word % 2 == 1));
        }
    }
}

#[test]
fn bytes_are_little_endian() {
    assert_eq!(values(&SIX[4], &[0xB6, 0x04, 0xFF, 0x0F], &[]), [1, -5]);
}

/// The table that a scheme takes: BCNS's, or none.
fn lent(s: &Scheme) -> Vec<u64> {
    match s.family {
        Family::Bcns => table(),
        Family::NewHope | Family::Frodo => vec![],
    }
}

/// How many values a length of bytes makes.
fn count_of(s: &Scheme, length: usize) -> usize {
    match s.family {
        Family::Bcns | Family::NewHope => 1024,
        Family::Frodo => length / 2,
    }
}

#[test]
fn each_length_has_its_count() {
    let mut generator = Generator::new(10);
    for s in &SIX {
        let table = lent(s);
        for length in lengths(s) {
            let bytes = generator.bytes(length);
            let count = count_of(s, length);
            let mut output = vec![7; count + 5];
            let answer = calls::noise(s.number, &bytes, &table, &mut output);
            assert_eq!(answer, Ok(count));
            assert_eq!(output[..count], values(s, &bytes, &table));
            assert_eq!(output[count..], [0; 5]);
            let answer = calls::noise(s.number, &bytes, &table, &mut output[..count]);
            assert_eq!(answer, Ok(count));
        }
    }
}

#[test]
fn lengths_of_the_rules() {
    assert_eq!(lengths(&SIX[0]), [25600]);
    assert_eq!(lengths(&SIX[1]), [4096]);
    for (s, n) in SIX[2..].iter().zip([352, 592, 752, 864]) {
        assert_eq!(lengths(s), [16 * n, 128]);
        assert_eq!(s.secret_count(), 16 * n / 2);
        assert_eq!(s.last_noise_count(), 128 / 2);
    }
    assert_eq!(SIX.each_ref().map(table_words), [153, 0, 0, 0, 0, 0]);
}

#[test]
fn refusal_1() {
    for scheme in [6, 7, 256, u64::MAX] {
        for length in [0, 128, 4096, 25600] {
            let mut output = vec![7; 2000];
            let answer = calls::noise(scheme, &vec![1; length], &[], &mut output);
            assert_eq!(answer, Err(refusal(1, 0)));
            assert_eq!(output, vec![0; 2000]);
        }
    }
    assert_eq!(calls::noise(6, &[], &[], &mut []), Err(refusal(1, 0)));
}

#[test]
fn refusal_2() {
    for s in &SIX {
        let table = lent(s);
        for fixed in lengths(s).into_iter().chain([0, 2, 64, 130]) {
            for length in [fixed.saturating_sub(1), fixed, fixed + 1] {
                if lengths(s).contains(&length) {
                    continue;
                }
                let mut output = vec![7; 7000];
                let answer = calls::noise(s.number, &vec![1; length], &table, &mut output);
                assert_eq!(answer, Err(refusal(2, 0)));
                assert_eq!(output, vec![0; 7000]);
            }
        }
        // the table's length, whatever stands in it
        for words in [0, 1, 3, 51, 150, 152, 153, 154, 156] {
            if words != table_words(s) {
                let mut output = vec![7; 7000];
                let bytes = vec![1; lengths(s)[0]];
                let answer = calls::noise(s.number, &bytes, &vec![9; words], &mut output);
                assert_eq!(answer, Err(refusal(2, 0)));
                assert_eq!(output, vec![0; 7000]);
            }
        }
    }
    // Another scheme's length is no fixed one.
    let answer = calls::noise(2, &[1; 16 * 592], &[], &mut [0; 8000]);
    assert_eq!(answer, Err(refusal(2, 0)));
    assert_eq!(calls::noise(1, &[1; 128], &[], &mut []), Err(refusal(2, 0)));
    assert_eq!(
        calls::noise(0, &[1; 4096], &table(), &mut []),
        Err(refusal(2, 0))
    );
}

#[test]
fn refusal_3() {
    for s in &SIX {
        let table = lent(s);
        for length in lengths(s) {
            let count = count_of(s, length);
            for room in [0, 1, count - 1] {
                let mut output = vec![7; room];
                let answer = calls::noise(s.number, &vec![0xFE; length], &table, &mut output);
                assert_eq!(answer, Err(refusal(3, 0)));
                assert_eq!(output, vec![0; room]);
            }
        }
    }
}

#[test]
fn refusal_18() {
    let bytes = vec![0xFE; 25600];
    // of the first entry the lowest word is 0: here there is one less than it
    let mut good = table();
    good[2] = 5;
    let refused = |table: &[u64]| {
        let mut output = vec![7; 1030];
        let answer = calls::noise(0, &bytes, table, &mut output);
        assert_eq!(output == vec![0; 1030], answer.is_err());
        // 3 comes before 18
        let answer_3 = calls::noise(0, &bytes, table, &mut output[..1023]);
        assert_eq!(answer_3, Err(refusal(3, 0)));
        answer
    };
    assert_eq!(refused(&good), Ok(1024));
    for place in 1..51 {
        let at = 3 * place;
        let mut equal = good.clone();
        equal.copy_within(at - 3..at, at);
        assert_eq!(refused(&equal), Err(refusal(18, place)));
        // above it by the lowest word alone, and below it so
        let mut above = equal.clone();
        above[at + 2] += 1;
        assert_eq!(refused(&above), Ok(1024));
        let mut below = equal.clone();
        below[at + 2] -= 1;
        assert_eq!(refused(&below), Err(refusal(18, place)));
        // the highest word decides, whatever the others say
        let mut lower = good.clone();
        lower[at] = lower[at - 3] - 1;
        lower[at + 1] = u64::MAX;
        lower[at + 2] = u64::MAX;
        assert_eq!(refused(&lower), Err(refusal(18, place)));
        // the first is told, where there are several
        let mut several = equal;
        several.copy_within(147..150, 150);
        assert_eq!(refused(&several), Err(refusal(18, place)));
    }
    assert_eq!(refused(&[7; 153]), Err(refusal(18, 1)));
}

/// A piece of 25 bytes: v and the last byte.
fn piece(v: [u64; 3], last: u8) -> Vec<u8> {
    let mut bytes = v.map(u64::to_be_bytes).concat();
    bytes.push(last);
    bytes
}

#[test]
fn bcns_counts_entries() {
    let table = table();
    let entries = entries(&table);
    let size = |v: [u64; 3]| {
        let plus = bcns(&piece(v, 0xFE), &entries);
        assert_eq!(bcns(&piece(v, 0x01), &entries), -plus);
        assert_eq!(bcns(&piece(v, 0x00), &entries), plus);
        assert_eq!(bcns(&piece(v, 0xFF), &entries), -plus);
        plus
    };
    assert_eq!(size([0; 3]), 0);
    assert_eq!(size([u64::MAX; 3]), 51);
    for (k, entry) in table.chunks_exact(3).enumerate() {
        let (k, [a, b, c]) = (k as i32, [entry[0], entry[1], entry[2]]);
        // at the entry, one more and one less
        assert_eq!(size([a, b, c]), k + 1);
        assert_eq!(size([a, b, c.wrapping_add(1)]), k + 1);
        match (c.checked_sub(1), b.checked_sub(1)) {
            (Some(c), _) => assert_eq!(size([a, b, c]), k),
            (None, Some(b)) => assert_eq!(size([a, b, u64::MAX]), k),
            (None, None) => assert_eq!(size([a - 1, u64::MAX, u64::MAX]), k),
        }
    }
    // 24 bytes big-endian: the first decides
    let mut bytes = vec![0; 25];
    bytes[0] = 0x20;
    assert_eq!(bcns(&bytes, &entries), 1);
    bytes[..2].copy_from_slice(&[0x1F, 0xFF]);
    assert_eq!(bcns(&bytes, &entries), 0);
}

#[test]
fn the_table_is_the_one_that_ships() {
    let text = include_str!("../../../data/bcns-table.txt");
    let table = table();
    assert_eq!(read(text), Some(table.clone()));
    let stored: Vec<&str> = text.lines().filter(|line| !line.starts_with('#')).collect();
    assert_eq!(lines(&table), stored);
    assert_eq!(table.len(), 153);
    // 000: all elements are in [2^189, 2^192], and each is above the one before
    assert_eq!(table[..3], [1 << 61, 0, 0]);
    let entries = entries(&table);
    assert!(entries.windows(2).all(|pair| pair[0] < pair[1]));
    for other in ["12g4", "1 2 x", "10000000000000000"] {
        assert_eq!(read(other), None);
    }
}

/// 000's distribution is close to a Gaussian: the difference of two entries is
/// 2^192 times twice D(x), which falls off by exp(-pi (2x + 1) / 64) a step.
#[test]
fn the_table_is_gaussian() {
    let top = |k: usize| table()[3 * k] as f64 / 2f64.powi(64);
    for x in 1..9 {
        let twice = top(x) - top(x - 1);
        let gaussian = (-std::f64::consts::PI * (x * x) as f64 / 64.0).exp() / 4.0;
        assert!((twice / gaussian - 1.0).abs() < 1e-9, "{x}");
    }
}

#[test]
fn pi_to_320_bits() {
    // 3.243F6A88 85A308D3 13198A2E 03707344 A4093822 299F31D0 082EFA98 EC4E6C89 ..
    let pi = pi();
    let expected = [
        3,
        0x243F6A8885A308D3,
        0x13198A2E03707344,
        0xA4093822299F31D0,
    ];
    assert_eq!([5, 4, 3, 2].map(|k| pi.low.0[k]), expected);
    assert_eq!([5, 4, 3, 2].map(|k| pi.high.0[k]), expected);
    assert!(pi.high.0[0].wrapping_sub(pi.low.0[0]) < 1 << 20);
}
