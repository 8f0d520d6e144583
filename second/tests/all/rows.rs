//! 02, request e: Frodo by rows.

use crate::generator::Generator;
use crate::inputs::{numbers, Inputs};
use second::refusal::{refusal, Refusal};
use second::rows::{self, any_state, damaged, lay, parse, run, state_count};
use second::rows::{Call, Carried, Cut, Seen, Which};
use second::schemes::{Scheme, FRODO_CHALLENGE, SIX};
use std::collections::BTreeMap;

const CUTS: [Cut; 4] = [Cut::Rows, Cut::AllButOne, Cut::AtRandom, Cut::Ones];
const BOTH: [Which; 2] = [Which::Offer, Which::Reply];

const NO_BEGIN: Refusal = Refusal {
    number: 11,
    place: 0,
};

/// The four sets.
fn frodo() -> &'static [Scheme] {
    &SIX[2..]
}

/// Where the running sums of a state start, and the rows held back.
fn starts(n: usize) -> (usize, usize) {
    (67 + 4 * n, 67 + 8 * n)
}

/// Numbers of A among the rows held back, from word `from` of these on: two words in a
/// number, the one before the other in its low half. The other words stay.
fn lay_back(held: &mut [u32], from: usize, numbers: &[u32]) {
    for (word, &number) in (from..).zip(numbers) {
        let (low, high) = (held[word / 2] % 65536, held[word / 2] / 65536);
        held[word / 2] = match word % 2 {
            0 => number + 65536 * high,
            _ => low + 65536 * number,
        };
    }
}

/// Frodo Challenge, and its state of one pattern.
fn challenge() -> (&'static Scheme, Vec<u32>) {
    (&SIX[2], vec![0xA5A5A5A5; state_count(&SIX[2])])
}

fn offer_begin(i: &Inputs, state: &mut [u32]) -> Result<(), Refusal> {
    rows::offer_begin(i.scheme.number, &i.s, &i.e, &i.seed, state)
}

fn reply_begin(i: &Inputs, opening: &[u8], state: &mut [u32]) -> Result<(), Refusal> {
    rows::reply_begin(i.scheme.number, opening, &i.s1, &i.e1, &i.e2, state)
}

fn part(which: Which, part: &[u32], state: &mut [u32]) -> Result<(), Refusal> {
    match which {
        Which::Offer => rows::offer_part(part, state),
        Which::Reply => rows::reply_part(part, state),
    }
}

/// End's refusal, with outputs that hold zeros afterwards.
fn end_refused(which: Which, scheme: &Scheme, state: &mut [u32]) -> Refusal {
    let mut message = vec![0xAA; 20000];
    let (mut key, mut digest) = (vec![0xAA; scheme.key_bytes], vec![0xAA; 32]);
    let told = match which {
        Which::Offer => rows::offer_end(state, &mut message).unwrap_err(),
        Which::Reply => {
            let told = rows::reply_end(state, &mut message, &mut key, &mut digest);
            assert_eq!(key, vec![0; scheme.key_bytes]);
            assert_eq!(digest, [0; 32]);
            told.unwrap_err()
        }
    };
    assert_eq!(message, vec![0; 20000]);
    told
}

#[test]
fn the_states_length() {
    let counts: Vec<usize> = frodo().iter().map(state_count).collect();
    assert_eq!(counts, [5699, 9539, 12099, 13891]);
    for s in frodo() {
        assert_eq!(state_count(s), 16 * s.n + 67);
        assert!(state_count(s) <= 32 * s.n + 256);
    }
}

#[test]
fn offers_state_by_hand() {
    let (s, mut state) = challenge();
    let n = 352;
    let mut inputs = Inputs::zero(s);
    for (at, byte) in inputs.seed.iter_mut().enumerate() {
        *byte = 240 + at as u8;
    }
    // S[5][3] is 2, S[350][0] is -3; E[7][2] is -1, E[0][3] is 1.
    (inputs.s[5 * 8 + 3], inputs.s[350 * 8]) = (2, -3);
    (inputs.e[7 * 8 + 2], inputs.e[3]) = (-1, 1);
    assert_eq!(offer_begin(&inputs, &mut state), Ok(()));
    let mut expected = vec![0; 5699];
    (expected[0], expected[1], expected[2]) = (3, 2, 0);
    for at in 0..16 {
        expected[3 + at] = 240 + at as u32;
    }
    // Words 3 * 352 + 5 and 350 of the secret, 58 and 3 of the sums.
    let (sums, held) = (67 + 4 * n, 67 + 8 * n);
    (expected[67 + 530], expected[67 + 175]) = (2 << 16, 65533);
    (expected[sums + 29], expected[sums + 1]) = (65535, 1 << 16);
    assert_eq!(state, expected);

    // Row 0 in parts, with 30 in column 5 and 7 in column 350: it is held back, two
    // numbers in one. The first part leaves the upper half of its last one as it was.
    assert_eq!(rows::offer_part(&[9, 9, 9, 9, 9], &mut state), Ok(()));
    expected[held..held + 3].copy_from_slice(&[589833, 589833, 9]);
    expected[2] = 5;
    assert_eq!(state, expected);
    assert_eq!(rows::offer_part(&[30, 2047], &mut state), Ok(()));
    (expected[held + 2], expected[held + 3]) = (9 + (30 << 16), 2047);
    expected[2] = 7;
    assert_eq!(state, expected);
    let mut rest = vec![0; n - 7];
    rest[350 - 7] = 7;
    assert_eq!(rows::offer_part(&rest, &mut state), Ok(()));
    expected[held + 175] = 7;
    expected[2] = 352;
    assert_eq!(state, expected);
    // Rows 1 to 14 all at once, row 15 but for its last number.
    for row in 1..15 {
        assert_eq!(rows::offer_part(&vec![1; n], &mut state), Ok(()));
        expected[held + row * 176..held + (row + 1) * 176].fill(65537);
        expected[2] += 352;
        assert_eq!(state, expected);
    }
    assert_eq!(rows::offer_part(&vec![1; n - 1], &mut state), Ok(()));
    expected[held + 15 * 176..].fill(65537);
    expected[5698] = 1;
    expected[2] = 16 * 352 - 1;
    assert_eq!(state, expected);
    // With it all sixteen enter, and none is held back: they stay where they lie.
    assert_eq!(rows::offer_part(&[1], &mut state), Ok(()));
    expected[5698] = 65537;
    expected[2] = 16 * 352;
    // B[0][3] is 1 + 2 * 30, B[0][0] is -3 * 7.
    (expected[sums + 1], expected[sums]) = (61 << 16, 65515);
    for row in 1..16 {
        (expected[sums + 4 * row + 1], expected[sums + 4 * row]) = (2 << 16, 65533);
    }
    // B[7][2] stays -1, in one number with B[7][3].
    expected[sums + 29] = 65535 + (2 << 16);
    assert_eq!(state, expected);
    assert_eq!(rows::offer_part(&[], &mut state), Ok(()));
    assert_eq!(state, expected);

    // The next sixteen: zeros, but for 2 in row 17 and column 350.
    for row in 16..32 {
        let mut numbers = vec![0; n];
        numbers[350] = if row == 17 { 2 } else { 0 };
        assert_eq!(rows::offer_part(&numbers, &mut state), Ok(()));
        expected[2] += 352;
        let at = held + (row - 16) * 176;
        expected[at..at + 176].fill(0);
        expected[at + 175] = numbers[350];
        if row == 31 {
            expected[sums + 4 * 17] = 65530;
        }
        assert_eq!(state, expected);
    }
}

#[test]
fn replys_state_by_hand() {
    let (s, mut state) = challenge();
    let n = 352;
    let mut inputs = Inputs::zero(s);
    // S'[2][4] is -1, S'[7][21] is 3; E'[6][9] is 1; E''[0][0] is -2, E''[7][7] is 3.
    (inputs.s1[2 * n + 4], inputs.s1[7 * n + 21]) = (-1, 3);
    inputs.e1[6 * n + 9] = 1;
    (inputs.e2[0], inputs.e2[63]) = (-2, 3);
    // Of B the entry [4][1] is 5, of 11 bits; V[2][1] is -5.
    let mut opening = vec![0; s.opening_bytes()];
    let mut packed = vec![0; 8 * n];
    packed[4 * 8 + 1] = 5;
    opening[16..].copy_from_slice(&second::packing::pack(&packed, 11));
    assert_eq!(reply_begin(&inputs, &opening, &mut state), Ok(()));
    let mut expected = vec![0; 5699];
    (expected[0], expected[1], expected[2]) = (4, 2, 0);
    (expected[3], expected[3 + 63], expected[3 + 2 * 8 + 1]) = (2046, 3, 2043);
    // Words 708 and 2485 of the secret, 2121 of the sums.
    let (sums, held) = (67 + 4 * n, 67 + 8 * n);
    (expected[67 + 354], expected[67 + 1242]) = (65535, 3 << 16);
    expected[sums + 1060] = 1 << 16;
    assert_eq!(state, expected);

    // In row 4 stand 7 and 8; the other rows meet zeros of S'.
    let two = 2047 + (2047 << 16);
    for row in 0..4 {
        assert_eq!(rows::reply_part(&vec![2047; n], &mut state), Ok(()));
        expected[held + row * 176..held + (row + 1) * 176].fill(two);
        expected[2] += 352;
        assert_eq!(state, expected);
    }
    assert_eq!(rows::reply_part(&[7, 8], &mut state), Ok(()));
    expected[held + 4 * 176] = 7 + (8 << 16);
    expected[2] += 2;
    assert_eq!(state, expected);
    assert_eq!(rows::reply_part(&vec![0; n - 2], &mut state), Ok(()));
    expected[2] += 350;
    assert_eq!(state, expected);
    for row in 5..15 {
        assert_eq!(rows::reply_part(&vec![2047; n], &mut state), Ok(()));
        expected[held + row * 176..held + (row + 1) * 176].fill(two);
        expected[2] += 352;
        assert_eq!(state, expected);
    }
    assert_eq!(rows::reply_part(&vec![2047; n], &mut state), Ok(()));
    expected[held + 15 * 176..].fill(two);
    expected[2] += 352;
    // B'[2][0] and B'[2][1] are -7 and -8: two words of one number.
    expected[sums + n] = 65529 + 65528 * 65536;
    assert_eq!(state, expected);

    // The next sixteen: 5 at the end of row 21.
    for row in 16..32 {
        let mut numbers = vec![0; n];
        numbers[351] = if row == 21 { 5 } else { 0 };
        assert_eq!(rows::reply_part(&numbers, &mut state), Ok(()));
    }
    expected[held..].fill(0);
    expected[held + 6 * 176 - 1] = 5 << 16;
    expected[2] += 16 * 352;
    expected[sums + 4 * n - 1] = 15 << 16;
    assert_eq!(state, expected);
}

/// Parts that end in the middle of a pair: the other half of the number that they
/// share with what stands before or behind them stays as it was.
#[test]
fn an_odd_cut_by_hand() {
    for s in frodo() {
        let (n, (sums, held)) = (s.n, starts(s.n));
        let last = 67 + 16 * n - 1;
        for which in BOTH {
            // Words 51,000 and 52,000 by turns, which no number of A is.
            let (low, high) = (51000, 52000 << 16);
            let mut state = any_state(s, which, 0, 22);
            state[held..].fill(low + high);
            let mut expected = state.clone();
            let mut step = |numbers: &[u32], laid: &[(usize, u32)]| {
                assert_eq!(part(which, numbers, &mut state), Ok(()));
                expected[2] += numbers.len() as u32;
                for &(at, number) in laid {
                    expected[at] = number;
                }
                assert_eq!(state, expected, "{} {which:?} {numbers:?}", s.name);
            };
            // An odd end, from an even place.
            step(&[1, 2, 3], &[(held, 1 + (2 << 16)), (held + 1, 3 + high)]);
            // None from an odd place.
            step(&[], &[]);
            // An even end, from an odd place.
            step(&[4], &[(held + 1, 3 + (4 << 16))]);
            // One number, low; then from an odd place to an odd end.
            step(&[5], &[(held + 2, 5 + high)]);
            let (third, fourth) = (5 + (6 << 16), 7 + high);
            step(&[6, 7], &[(held + 2, third), (held + 3, fourth)]);
            step(&[0], &[(held + 3, 7)]);

            // The end of sixteen rows: three numbers from an odd place, in two parts. The
            // second of them brings all words into the sums, as they lie.
            let before = any_state(s, which, 16 * n - 3, 23);
            let mut state = before.clone();
            assert_eq!(part(which, &[8, 9], &mut state), Ok(()));
            let mut expected = before.clone();
            expected[2] = 16 * n as u32 - 1;
            expected[last - 1] = before[last - 1] % 65536 + (8 << 16);
            expected[last] = before[last] / 65536 * 65536 + 9;
            assert_eq!(state, expected);
            assert_eq!(part(which, &[10], &mut state), Ok(()));
            expected[2] += 1;
            expected[last] = 9 + (10 << 16);
            assert_eq!(state[..sums], expected[..sums]);
            assert_ne!(state[sums..held], expected[sums..held]);
            assert_eq!(state[held..], expected[held..]);
            // Then the first word again, and no other.
            let mut expected = state.clone();
            assert_eq!(part(which, &[11], &mut state), Ok(()));
            expected[2] += 1;
            expected[held] = before[held] / 65536 * 65536 + 11;
            assert_eq!(state, expected);
        }
    }
}

#[test]
fn by_rows_as_whole() {
    // Ones are slow in the larger sets, and cuts at random have many.
    for s in frodo() {
        for which in BOTH {
            for cut in CUTS {
                if s.n > 352 && cut == Cut::Ones {
                    continue;
                }
                let mut calls = 0;
                let mut last = vec![];
                let (rows, whole) = run(s, which, cut, false, 3, &mut |_, seen, state| {
                    assert_eq!(seen.refusal, None);
                    calls += 1;
                    last = state.to_vec();
                });
                assert_eq!(rows, whole, "{} {which:?} {cut:?}", s.name);
                assert!(whole[0].iter().any(|&byte| byte != 0));
                // A good end zeroes the state.
                assert_eq!(last, vec![0; state_count(s)]);
                let parts = match cut {
                    Cut::Rows => s.n,
                    Cut::AllButOne => 2 * s.n,
                    Cut::Ones => s.n * s.n,
                    Cut::AtRandom => calls - 2,
                };
                assert_eq!(calls, parts + 2);
                assert!(cut != Cut::AtRandom || parts > 3 * s.n, "{parts}");
            }
        }
    }
}

#[test]
fn with_refused_calls_in_between() {
    let mut seen_all = BTreeMap::new();
    for which in BOTH {
        for seed in [4, 5, 6] {
            for cut in [Cut::Rows, Cut::AtRandom] {
                let mut before = vec![];
                let (rows, whole) =
                    run(&SIX[2], which, cut, true, seed, &mut |call, seen, state| {
                        if seen.refusal.is_some() {
                            assert_eq!(state, before);
                            for output in &seen.outputs {
                                assert!(output.iter().all(|&byte| byte == 0));
                            }
                            assert!(seen.written.iter().all(|&written| written == 0));
                        }
                        let number = seen.refusal.map_or(0, |refused| refused.number);
                        let kind = match call {
                            Call::OfferBegin { .. } | Call::ReplyBegin { .. } => "begin",
                            Call::OfferPart(_) | Call::ReplyPart(_) => "part",
                            Call::OfferEnd { .. } | Call::ReplyEnd { .. } => "end",
                        };
                        *seen_all.entry((kind, number)).or_insert(0) += 1;
                        before = state.to_vec();
                    });
                assert_eq!(rows, whole);
            }
        }
    }
    let kinds: Vec<(&str, u32)> = seen_all.keys().copied().collect();
    let expected = [
        ("begin", 0),
        ("end", 0),
        ("end", 3),
        ("end", 11),
        ("part", 0),
        ("part", 4),
        ("part", 11),
    ];
    assert_eq!(kinds, expected, "{seen_all:?}");
}

#[test]
fn an_exchange_by_rows() {
    // Both ends by rows; the initiator finishes, and the keys are the same.
    for s in frodo() {
        let i = Inputs::random(s, &mut Generator::new(170 + s.number));
        let mut state = vec![7; state_count(s)];
        let mut opening = vec![0xAA; s.opening_bytes() + 1];
        assert_eq!(offer_begin(&i, &mut state), Ok(()));
        for row in i.a.chunks(s.n) {
            assert_eq!(rows::offer_part(row, &mut state), Ok(()));
        }
        let told = rows::offer_end(&mut state, &mut opening);
        assert_eq!((told, opening.pop()), (Ok(s.opening_bytes()), Some(0)));
        assert_eq!(opening, i.opening());

        assert_eq!(reply_begin(&i, &opening, &mut state), Ok(()));
        for row in i.a.chunks(s.n) {
            let (front, behind) = row.split_at(s.n / 3);
            assert_eq!(rows::reply_part(front, &mut state), Ok(()));
            assert_eq!(rows::reply_part(&[], &mut state), Ok(()));
            assert_eq!(rows::reply_part(behind, &mut state), Ok(()));
        }
        let mut reply = vec![0xAA; s.reply_bytes() + 2];
        let (mut key, mut digest) = (vec![0xAA; s.key_bytes + 3], vec![0xAA; 32 + 4]);
        let told = rows::reply_end(&mut state, &mut reply, &mut key, &mut digest);
        assert_eq!(told, Ok((s.reply_bytes(), s.key_bytes, 32)));
        let (whole, whole_key) = i.reply_and_key(&opening);
        assert_eq!(reply, [&whole[..], &[0; 2]].concat());
        assert_eq!(key, [&whole_key[..], &[0; 3]].concat());
        let sha3 = second::hash::sha3_256(&whole_key);
        assert_eq!(digest, [&sha3[..], &[0; 4]].concat());
        assert_eq!(i.peer(&whole), whole_key);
        assert_eq!(state, vec![0; state_count(s)]);
    }
}

#[test]
fn the_cut_makes_no_difference() {
    let mut generator = Generator::new(180);
    let s = &SIX[2];
    let (sums, held) = starts(352);
    for which in BOTH {
        // Inside sixteen rows, also where eight end, and to their end; from odd places too.
        for (come, ends) in [
            (0, false),
            (352 * 7 + 300, false),
            (352 * 14 + 301, false),
            (352 * 15, true),
            (352 * 15 + 300, true),
            (352 * 15 + 301, true),
            (352 * 16, false),
            (352 * 352 - 352, true),
        ] {
            let before = any_state(s, which, come, generator.below(1000) + 1);
            let left = 352 - come % 352;
            let numbers = numbers(&mut generator, left, s.q);
            let mut whole = before.clone();
            assert_eq!(part(which, &numbers, &mut whole), Ok(()));
            assert_eq!(whole[2] as usize, come + left);
            assert_eq!(whole[sums..held] != before[sums..held], ends);
            // The part's numbers stand where they came to, and the others stay.
            let mut lies = before[held..].to_vec();
            lay_back(&mut lies, come % (16 * 352), &numbers);
            assert_eq!(whole[held..], lies);
            for at in 0..=left {
                let mut state = before.clone();
                assert_eq!(part(which, &numbers[..at], &mut state), Ok(()));
                assert_eq!(part(which, &[], &mut state), Ok(()));
                assert_eq!(part(which, &numbers[at..], &mut state), Ok(()));
                assert_eq!(state, whole);
            }
        }
    }
}

#[test]
fn words_wrap_at_two_to_the_16() {
    let s = &SIX[2];
    let (n, secret, (sums, held)) = (352, 67, starts(352));
    let mut state = any_state(s, Which::Offer, 16 * n - 1, 1);
    state[secret..].fill(0);
    // S[0][0] is 65535, S[1][0] is 32768, S[2][0] is 1; B[0][0] is 3, B[0][1] is 7.
    (state[secret], state[secret + 1]) = (65535 + 32768 * 65536, 1);
    state[sums] = 3 + 7 * 65536;
    // 5, 65534 and 65535 in row 0, and behind them 1 where S is 0.
    (state[held], state[held + 1]) = (5 + 65534 * 65536, 65535 + 65536);
    assert_eq!(rows::offer_part(&[0], &mut state), Ok(()));
    // 3 - 5 + 0 - 1: no word goes into the other of its number.
    assert_eq!(state[sums], 65533 + 7 * 65536);
    assert!(state[sums + 1..held].iter().all(|&number| number == 0));
    // Reduced at the end: 2^16 - 3 is -3 modulo 2048.
    state[2] = 352 * 352;
    let mut opening = vec![0; s.opening_bytes()];
    assert_eq!(rows::offer_end(&mut state, &mut opening), Ok(opening.len()));
    assert_eq!((opening[16], opening[17], opening[18]), (0xFD, 0x3F, 0));
}

#[test]
fn what_is_held_back_counts_and_nothing_behind_it() {
    for s in frodo() {
        let (n, (sums, held)) = (s.n, starts(s.n));
        for which in BOTH {
            let ends = [16 * n - 1, 15 * n, 32 * n - 5, n * n - n, n * n - 2];
            for come in ends {
                let before = any_state(s, which, come, 8);
                let rest = vec![s.q as u32 - 1; n - come % n];
                let mut after = before.clone();
                assert_eq!(part(which, &rest, &mut after), Ok(()));
                assert_ne!(after[sums..held], before[sums..held]);
                // What stood behind does not count, the second word of a pair neither.
                let at = come % (16 * n);
                let mut other = before.clone();
                lay_back(&mut other[held..], at, &vec![65535; rest.len()]);
                assert_ne!(other, before);
                assert_eq!(part(which, &rest, &mut other), Ok(()));
                assert_eq!(other, after);
                // Of the first, the second and the last of them all 16 bits do.
                for word in [0, 1, at - 1] {
                    for bit in [0, 15] {
                        let mut other = before.clone();
                        other[held + word / 2] ^= 1 << (word % 2 * 16 + bit);
                        assert_eq!(part(which, &rest, &mut other), Ok(()));
                        assert_ne!(other[sums..held], after[sums..held]);
                    }
                }
            }
        }
    }
}

#[test]
fn a_part_that_ends_no_sixteen_rows_is_laid_back_and_no_more() {
    let mut generator = Generator::new(181);
    for s in frodo() {
        let (n, held) = (s.n, starts(s.n).1);
        for which in BOTH {
            for (come, length) in [
                (0, n),
                (0, 1),
                (1, 1),
                (1, n - 2),
                (7, n - 7),
                (7 * n, n),
                (8 * n - 1, 1),
                (14 * n, n),
                (15 * n, n - 1),
                (16 * n - 2, 1),
                (16 * n - 1, 0),
                (16 * n, 0),
                (16 * n, 1),
                (24 * n - 1, 1),
                (n * n - n, n - 1),
                (n * n, 0),
            ] {
                let before = any_state(s, which, come, 10);
                let numbers = numbers(&mut generator, length, s.q);
                let mut expected = before.clone();
                expected[2] += length as u32;
                lay_back(&mut expected[held..], come % (16 * n), &numbers);
                let mut state = before.clone();
                assert_eq!(part(which, &numbers, &mut state), Ok(()));
                assert_eq!(state, expected, "{come} {length}");
            }
        }
    }
}

#[test]
fn a_state_and_its_numbers() {
    for s in frodo() {
        for which in BOTH {
            let all = s.n * s.n;
            for come in [0, 1, s.n, 16 * s.n - 1, 16 * s.n, all - 1, all] {
                let lent = any_state(s, which, come, 7);
                let state = parse(&lent).unwrap();
                assert_eq!(lay(&state), lent);
                assert_eq!((state.scheme.number, state.come), (s.number, come));
                let seed = matches!(state.carried, Carried::Seed(_));
                assert_eq!(seed, which == Which::Offer);
            }
            assert_eq!(parse(&any_state(s, which, all + 1, 7)), None);
        }
    }
}

#[test]
fn a_state_out_of_range_counts_as_none() {
    let (s, n) = (&SIX[2], 352u32);
    let q = 2048;
    for which in BOTH {
        let good = any_state(s, which, 352, 9);
        let fine = |at: usize, number: u32| {
            let mut state = good.clone();
            state[at] = number;
            parse(&state).is_some()
        };
        for call in [0, 1, 2, 5, 259, u32::MAX] {
            assert!(!fine(0, call));
        }
        for number in [0, 1, 3, 4, 5, 6, 258, u32::MAX] {
            assert!(!fine(1, number));
        }
        for (come, good) in [
            (0, true),
            (n * n, true),
            (n * n + 1, false),
            (u32::MAX, false),
        ] {
            assert_eq!(fine(2, come), good);
        }
        for at in 3..67 {
            let largest = match which {
                Which::Offer if at < 19 => 255,
                Which::Offer => 0,
                Which::Reply => q - 1,
            };
            assert!(fine(at, 0) && fine(at, largest), "{at}");
            assert!(!fine(at, largest + 1) && !fine(at, u32::MAX), "{at}");
        }
        for at in (67..good.len()).step_by(97).chain([good.len() - 1]) {
            assert!([0, q, 65535, 65536, u32::MAX]
                .into_iter()
                .all(|x| fine(at, x)));
        }
        for length in [0, 1, 2, 3, good.len() - 1] {
            assert_eq!(parse(&good[..length]), None);
        }
        assert_eq!(parse(&[&good[..], &[0]].concat()), None);
    }
    // Another set's number with that set's length, and only then.
    let mut other = any_state(&SIX[4], Which::Offer, 0, 9);
    other[1] = 5;
    assert_eq!(parse(&other), None);
    other.resize(state_count(&SIX[5]), 0);
    assert!(parse(&other).is_some());
}

#[test]
fn damaged_states_give_11_or_go_on() {
    let s = &SIX[2];
    let mut counts = [0; 2];
    for which in BOTH {
        for come in [352, 352 * 16 - 1, 352 * 16, 352 * 352] {
            for before in damaged(s, which, come, 11) {
                let begun = parse(&before);
                let mut state = before.clone();
                let told = part(which, &[], &mut state);
                // An empty part changes nothing where there is a begin of this call.
                assert_eq!(state, before);
                let offer = |carried| matches!(carried, Carried::Seed(_));
                let own = begun
                    .as_ref()
                    .is_some_and(|state| offer(state.carried.clone()) == (which == Which::Offer));
                assert_eq!(told, if own { Ok(()) } else { Err(NO_BEGIN) });
                counts[usize::from(own)] += 1;
                let all = begun.is_some_and(|state| state.come == 352 * 352);
                if !(own && all) {
                    assert_eq!(end_refused(which, s, &mut state), NO_BEGIN);
                    assert_eq!(state, before);
                }
            }
        }
    }
    assert!(counts.iter().all(|&count| count > 50), "{counts:?}");
}

#[test]
fn begins_refusals_in_their_order() {
    let s = &SIX[3];
    let length = state_count(s);
    let check = |told: Result<(), Refusal>, state: &[u32], expected| {
        assert_eq!(told, Err(expected));
        assert_eq!(state, vec![0; state.len()]);
    };
    let mut bad = Inputs::zero(s);
    let blank = vec![0; s.opening_bytes()];
    // A state that held something, of the right length or another.
    let before = |length: usize| vec![0xA5A5A5A5; length];

    // 6: s before e, s1 before e1 before e2, and 17 before all.
    (bad.s[4], bad.s[9], bad.e[2]) = (5, -5, 5);
    (bad.s1[6], bad.e1[5], bad.e2[3]) = (-5, 5, i32::MIN);
    let mut opening = blank.clone();
    opening[s.opening_bytes() - 1] = 128;
    let mut state = before(length);
    check(offer_begin(&bad, &mut state), &state, refusal(6, 4));
    let mut state = before(length);
    check(
        reply_begin(&bad, &opening, &mut state),
        &state,
        refusal(6, 6),
    );
    let mut state = before(length);
    check(
        reply_begin(&bad, &blank, &mut state),
        &state,
        refusal(17, 0),
    );
    let mut seeded = blank.clone();
    seeded[..16].fill(255);
    let mut state = before(length);
    check(
        reply_begin(&bad, &seeded, &mut state),
        &state,
        refusal(17, 0),
    );
    bad.s.fill(4);
    let mut state = before(length);
    check(offer_begin(&bad, &mut state), &state, refusal(6, 2));
    bad.s1.fill(-4);
    let mut state = before(length);
    check(
        reply_begin(&bad, &opening, &mut state),
        &state,
        refusal(6, 5),
    );
    bad.e1.fill(4);
    let mut state = before(length);
    check(
        reply_begin(&bad, &opening, &mut state),
        &state,
        refusal(6, 3),
    );
    bad.e2.fill(-4);
    let mut state = before(length);
    assert_eq!(reply_begin(&bad, &opening, &mut state), Ok(()));
    bad.e.fill(-4);
    assert_eq!(offer_begin(&bad, &mut state), Ok(()));

    // 2: each input's length, and the state's; before 17 and 6.
    (bad.s[0], bad.s1[0]) = (5, 5);
    for other in [
        0,
        1,
        length - 1,
        length + 1,
        state_count(&SIX[2]),
        state_count(&SIX[4]),
    ] {
        let mut state = before(other);
        check(offer_begin(&bad, &mut state), &state, refusal(2, 0));
        let mut state = before(other);
        check(reply_begin(&bad, &blank, &mut state), &state, refusal(2, 0));
    }
    let offers: [fn(&mut Inputs); 6] = [
        |i| i.s.push(0),
        |i| i.s.truncate(1),
        |i| i.e.push(0),
        |i| i.e.clear(),
        |i| i.seed.push(0),
        |i| i.seed.truncate(15),
    ];
    for change in offers {
        let mut shorter = bad.clone();
        change(&mut shorter);
        let mut state = before(length);
        check(offer_begin(&shorter, &mut state), &state, refusal(2, 0));
    }
    let replies: [fn(&mut Inputs); 6] = [
        |i| i.s1.push(0),
        |i| i.s1.truncate(1),
        |i| i.e1.push(0),
        |i| i.e1.clear(),
        |i| i.e2.push(0),
        |i| i.e2.truncate(63),
    ];
    for change in replies {
        let mut shorter = bad.clone();
        change(&mut shorter);
        let mut state = before(length);
        let told = reply_begin(&shorter, &blank, &mut state);
        check(told, &state, refusal(2, 0));
    }
    for opening in [&blank[1..], &[&blank[..], &[0]].concat()] {
        let mut state = before(length);
        check(
            reply_begin(&bad, opening, &mut state),
            &state,
            refusal(2, 0),
        );
    }

    // 1: here not 2 to 5; before 2.
    for number in [0, 1, 6, 7, 256, u64::MAX] {
        for length in [0, length] {
            let mut state = before(length);
            let told = rows::offer_begin(number, &bad.s, &[], &bad.seed, &mut state);
            check(told, &state, refusal(1, 0));
            let mut state = before(length);
            let told = rows::reply_begin(number, &blank, &[], &bad.e1, &bad.e2, &mut state);
            check(told, &state, refusal(1, 0));
        }
    }
}

#[test]
fn begin_starts_afresh() {
    let (s, mut state) = challenge();
    let i = Inputs::random(s, &mut Generator::new(190));
    let opening = i.opening();
    let mut fresh = vec![0; state.len()];
    assert_eq!(offer_begin(&i, &mut fresh), Ok(()));
    assert_eq!(offer_begin(&i, &mut state), Ok(()));
    assert_eq!(state, fresh);
    // Also where the other call was under way.
    let mut reply = any_state(s, Which::Reply, 4242, 1);
    assert_eq!(offer_begin(&i, &mut reply), Ok(()));
    assert_eq!(reply, fresh);
    assert_eq!(rows::offer_part(&[1, 2, 3], &mut state), Ok(()));
    assert_eq!(reply_begin(&i, &opening, &mut state), Ok(()));
    let mut fresh = vec![0; state.len()];
    assert_eq!(reply_begin(&i, &opening, &mut fresh), Ok(()));
    assert_eq!(state, fresh);
}

#[test]
fn a_parts_refusals() {
    let s = &SIX[2];
    for which in BOTH {
        // How many have come, and how many the row then takes.
        for (come, left) in [
            (0, 352),
            (1, 351),
            (351, 1),
            (352, 352),
            (5631, 1),
            (5632, 352),
            (123903, 1),
            (123904, 0),
        ] {
            let before = any_state(s, which, come, 12);
            let mut state = before.clone();
            for length in [left + 1, left + 2, 400, 704] {
                // 11 before 4.
                let told = part(which, &vec![2048; length], &mut state);
                assert_eq!(told, Err(NO_BEGIN), "{come} {length}");
                assert_eq!(state, before);
            }
            for (length, place) in [(left, 0), (left, left / 2), (left, left.max(1) - 1)] {
                if length == 0 {
                    continue;
                }
                // Its place in the part, not in the row; the first of several.
                let mut numbers = vec![2047; length];
                numbers[place] = 2048;
                numbers[length - 1] = u32::MAX;
                let told = part(which, &numbers, &mut state);
                assert_eq!(told, Err(refusal(4, place)));
                assert_eq!(state, before);
            }
            assert_eq!(part(which, &[], &mut state), Ok(()));
            assert_eq!(state, before);
            assert_eq!(part(which, &vec![2047; left], &mut state), Ok(()));
            assert_eq!(state[2] as usize, come + left);
        }
    }
}

#[test]
fn the_other_calls_state_counts_as_none() {
    let s = &SIX[2];
    for (which, other) in [(Which::Offer, Which::Reply), (Which::Reply, Which::Offer)] {
        for come in [0, 352 * 352] {
            let before = any_state(s, other, come, 13);
            let mut state = before.clone();
            assert_eq!(part(which, &[], &mut state), Err(NO_BEGIN));
            assert_eq!(part(which, &[u32::MAX], &mut state), Err(NO_BEGIN));
            assert_eq!(end_refused(which, s, &mut state), NO_BEGIN);
            assert_eq!(state, before);
        }
    }
}

#[test]
fn ends_refusals() {
    let s = &SIX[2];
    for which in BOTH {
        // Before all n rows: 11 before 3.
        for come in [0, 1, 352, 352 * 16, 352 * 352 - 1] {
            let mut state = any_state(s, which, come, 14);
            let before = state.clone();
            assert_eq!(end_refused(which, s, &mut state), NO_BEGIN);
            let told = match which {
                Which::Offer => rows::offer_end(&mut state, &mut []).unwrap_err(),
                Which::Reply => rows::reply_end(&mut state, &mut [], &mut [], &mut []).unwrap_err(),
            };
            assert_eq!(told, NO_BEGIN);
            assert_eq!(state, before);
        }
    }
    // 3 before 17: all sums are multiples of q. Then 17, and the state stays.
    let mut offered = any_state(s, Which::Offer, 352 * 352, 15);
    let (sums, held) = starts(352);
    for (at, two) in offered[sums..held].iter_mut().enumerate() {
        let at = at as u32;
        *two = at % 32 * 2048 + at / 32 % 32 * 2048 * 65536;
    }
    let before = offered.clone();
    let mut short = vec![0xAA; s.opening_bytes() - 1];
    let told = rows::offer_end(&mut offered, &mut short);
    assert_eq!(told, Err(refusal(3, 0)));
    assert_eq!(short, vec![0; short.len()]);
    assert_eq!(end_refused(Which::Offer, s, &mut offered), refusal(17, 0));
    assert_eq!(offered, before);
    offered[held - 1] += 65536;
    let mut opening = vec![0xAA; s.opening_bytes()];
    assert_eq!(
        rows::offer_end(&mut offered, &mut opening),
        Ok(opening.len())
    );
    assert_eq!(offered, vec![0; offered.len()]);

    let mut replied = any_state(s, Which::Reply, 352 * 352, 15);
    replied[sums..held].fill(0x8000_F800);
    let before = replied.clone();
    let rooms = [s.reply_bytes(), s.key_bytes, 32];
    for at in 0..3 {
        let mut rooms = rooms;
        rooms[at] -= 1;
        let [mut m, mut k, mut d] = rooms.map(|room| vec![0xAA; room]);
        let told = rows::reply_end(&mut replied, &mut m, &mut k, &mut d);
        assert_eq!(told, Err(refusal(3, 0)));
        assert_eq!([m, k, d], rooms.map(|room| vec![0; room]));
    }
    assert_eq!(end_refused(Which::Reply, s, &mut replied), refusal(17, 0));
    assert_eq!(replied, before);
    replied[sums] += 2047;
    let [mut m, mut k, mut d] = rooms.map(|room| vec![0xAA; room]);
    let told = rows::reply_end(&mut replied, &mut m, &mut k, &mut d);
    assert_eq!(told, Ok((s.reply_bytes(), s.key_bytes, 32)));
    assert_eq!(replied, vec![0; replied.len()]);
}

#[test]
fn blank_as_the_whole_call() {
    // Zero secret and noise: both refuse 17, by rows at the end.
    let (s, mut state) = challenge();
    let mut i = Inputs::random(s, &mut Generator::new(191));
    let opening = i.opening();
    for zero in [&mut i.s, &mut i.e, &mut i.s1, &mut i.e1] {
        zero.fill(0);
    }
    assert_eq!(offer_begin(&i, &mut state), Ok(()));
    for row in i.a.chunks(s.n) {
        assert_eq!(rows::offer_part(row, &mut state), Ok(()));
    }
    let whole = i.offer(&mut vec![0; s.opening_bytes()]).unwrap_err();
    assert_eq!(end_refused(Which::Offer, s, &mut state), whole);
    assert_eq!(reply_begin(&i, &opening, &mut state), Ok(()));
    for row in i.a.chunks(s.n) {
        assert_eq!(rows::reply_part(row, &mut state), Ok(()));
    }
    let [mut m, mut k, mut d] = [s.reply_bytes(), 8, 32].map(|room| vec![0; room]);
    let whole = i.reply(&opening, &mut m, &mut k, &mut d).unwrap_err();
    assert_eq!(end_refused(Which::Reply, s, &mut state), whole);
    assert_eq!(whole, refusal(17, 0));
}

#[test]
fn a_call_as_a_value() {
    // The value makes the very calls, begins among them.
    let (s, mut state) = challenge();
    for which in BOTH {
        let begin = rows::begin(s, which, 21);
        let told = begin.run(&mut state);
        let expected = Seen {
            refusal: None,
            written: vec![],
            outputs: vec![],
        };
        assert_eq!(told, expected);
        let begun = parse(&state).unwrap();
        assert_eq!((begun.come, begun.scheme), (0, &FRODO_CHALLENGE));
        let mut short = vec![1; 12];
        assert_eq!(begin.run(&mut short).refusal, Some(refusal(2, 0)));
        assert_eq!(short, [0; 12]);
    }
    let end = Call::ReplyEnd {
        message: 5,
        key: 6,
        digest: 7,
    };
    let before = state.clone();
    let expected = Seen {
        refusal: Some(NO_BEGIN),
        written: vec![0; 3],
        outputs: vec![vec![0; 5], vec![0; 6], vec![0; 7]],
    };
    assert_eq!(end.run(&mut state), expected);
    assert_eq!(state, before);
}
