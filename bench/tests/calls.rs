//! The plain calls against the second program's, so that what is measured gives
//! the same bytes. The proved calls are held to it in `rust/`.

use bench::draw::Draw;
use bench::lent::{table, Lent};
use bench::plain::bcns::Bcns;
use bench::plain::frodo::Frodo;
use bench::plain::newhope::NewHope;
use bench::plain::{keccak, polynomial, sampling, Calls};
use second::calls;
use second::expand::Rule;
use second::schemes::{Family, Scheme, SIX};

struct Given {
    opening: Vec<u8>,
    reply: Vec<u8>,
    key: Vec<u8>,
    peer: Vec<u8>,
}

/// Room that holds something else.
fn room(scheme: &Scheme) -> Given {
    Given { opening: vec![9; scheme.opening_bytes()], reply: vec![9; scheme.reply_bytes()], key: vec![9; scheme.key_bytes], peer: vec![9; scheme.key_bytes] }
}

/// The second program's exchange.
fn expected(l: &Lent) -> Given {
    let (number, mut given) = (l.scheme.number, room(l.scheme));
    calls::offer(number, &l.a, &l.s, &l.e, &l.seed, &mut given.opening).expect("good inputs");
    calls::reply(number, &given.opening, &l.a, &l.s1, &l.e1, &l.e2, &l.coins, &mut given.reply, &mut given.key, &mut [0; 32]).expect("good inputs");
    calls::finish(number, &given.reply, &l.s, &mut given.peer, &mut [0; 32]).expect("good inputs");
    given
}

fn held(l: &Lent, expected: &Given, plain: &dyn Calls) {
    let mut given = room(l.scheme);
    plain.offer(&mut given.opening);
    plain.reply(&expected.opening, &mut given.reply, &mut given.key);
    plain.finish(&expected.reply, &mut given.peer);
    let name = l.scheme.name;
    assert!(given.opening == expected.opening, "{name}: the opening");
    assert!(given.reply == expected.reply, "{name}: the reply");
    assert!(given.key == expected.key, "{name}: the replier's key");
    assert!(given.peer == expected.peer, "{name}: the initiator's key");
}

fn exchange(l: &Lent) {
    let expected = expected(l);
    match l.scheme.family {
        Family::Bcns => {
            held(l, &expected, &Bcns { lent: l, mix: polynomial::mix });
            held(l, &expected, &Bcns { lent: l, mix: polynomial::mix_by_windows });
        }
        Family::NewHope => {
            let plain = NewHope::of(l);
            held(l, &expected, &plain);
            let mut key = [9; 32];
            plain.finish_kept(&expected.reply, &plain.kept(), &mut key);
            assert!(key[..] == expected.peer, "the same with s kept transformed");
        }
        Family::Frodo => held(l, &expected, &Frodo::of(l)),
    }
}

#[test]
fn exchanges() {
    for scheme in &SIX {
        (0..3).for_each(|seed| exchange(&Lent::drawn(scheme, seed)));
    }
}

/// Public numbers q - 1 and all noise at its largest, of either sign, that of e,
/// e' and e'' the other, or NewHope's messages would be blank: the two ends' keys
/// need not agree, and each is the second program's.
#[test]
fn exchanges_of_the_largest() {
    for scheme in &SIX {
        for side in [-1, 1] {
            let mut lent = Lent::drawn(scheme, 0);
            lent.a.fill(scheme.q as u32 - 1);
            let largest = side * scheme.largest_noise as i32;
            for values in [&mut lent.s, &mut lent.s1] {
                values.fill(largest);
            }
            for values in [&mut lent.e, &mut lent.e1, &mut lent.e2] {
                values.fill(-largest);
            }
            exchange(&lent);
        }
    }
}

#[test]
fn noise() {
    for scheme in &SIX {
        let table = table(scheme);
        for length in second::noise::lengths(scheme) {
            let bytes = Draw::new(length as u32).bytes(length);
            let mut values = vec![99; length / second::noise::bytes_a_value(scheme)];
            let expected = second::noise::values(scheme, &bytes, &table);
            sampling::noise(scheme, &bytes, &table, &mut values);
            assert!(values == expected, "{}", scheme.name);
            if scheme.family == Family::Bcns {
                sampling::bcns_early(&bytes, &table, &mut values);
                assert!(values == expected, "a search that stops early");
            }
        }
    }
    // at the entries of a table that share words, one less and one more
    let table = second::long::noise::table();
    let bytes = second::long::noise::edges(&[0; 25600]);
    let expected = second::noise::values(&SIX[0], &bytes, &table);
    let (mut all, mut early) = ([0; 1024], [0; 1024]);
    sampling::bcns(&bytes, &table, &mut all);
    sampling::bcns_early(&bytes, &table, &mut early);
    assert!(all[..] == expected && early[..] == expected, "the edges of the entries");
}

#[test]
fn expand() {
    for (seed, length) in [(0, 0), (1, 1), (2, 2047), (3, 4096), (4, 65536)] {
        let stream = Draw::new(seed).bytes(length);
        for rule in [Rule::LowBits, Rule::WholeWord] {
            let mut numbers = [9; 1024];
            let taken = sampling::expand(rule, &stream, &mut numbers);
            assert!(numbers[..taken] == second::expand::taken(rule, &stream));
        }
    }
    // every word by itself, so that every number of either rule comes up
    for word in 0..=u16::MAX {
        for rule in [Rule::LowBits, Rule::WholeWord] {
            let mut numbers = [9];
            let taken = sampling::expand(rule, &word.to_le_bytes(), &mut numbers);
            assert!(numbers[..taken] == second::expand::taken(rule, &word.to_le_bytes()), "{word}");
        }
    }
}

/// Around the blocks of both hashes, in and out.
#[test]
fn hashes() {
    for length in [0, 1, 7, 8, 32, 135, 136, 137, 167, 168, 169, 271, 272, 273, 335, 336, 337, 1000] {
        let input = Draw::new(length as u32).bytes(length);
        let (mut digest, mut bytes) = ([9; 32], vec![9; length]);
        keccak::sha3_256(&input, &mut digest);
        assert!(digest[..] == second::hash::sha3_256(&input), "{length}");
        keccak::shake128(&input[..length.min(32)], &mut bytes);
        assert!(bytes == second::hash::shake128(&input[..length.min(32)], length), "{length}");
        keccak::shake128(&input, &mut digest);
        assert!(digest[..] == second::hash::shake128(&input, 32), "{length}");
    }
}
