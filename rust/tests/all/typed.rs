//! The typed ends: the same bytes as the raw calls, and nothing left in a buffer
//! whose owner is done with it.

use crate::generator::Generator;
use crate::inputs::Inputs;
use second::schemes::SIX;
use wimmostry::{expand, grow, sha3_256, shake128, Digest};
use wimmostry::{same, wipe};
use wimmostry::{Initiator, Offered, Refusal, Replier, Rule, Scheme, Secret, Sizes};

fn scheme(inputs: &Inputs) -> Scheme {
    Scheme::try_from(inputs.scheme.number as u32).expect("one of six")
}

/// A whole exchange; the buffers of the secrets are zero after it.
fn exchange(mut i: Inputs) {
    let (scheme, sizes) = (scheme(&i), scheme(&i).sizes());
    let expected_opening = i.opening();
    let (expected_reply, expected_key) = i.reply_and_key(&expected_opening);
    let expected_digest = second::hash::sha3_256(&expected_key);
    let expected_slack = i.slack(&expected_reply);

    let (mut room, mut message) = (vec![9; sizes.opening + 3], vec![9; sizes.reply + 3]);
    let (mut key, mut peer_key) = (vec![9; sizes.key + 3], vec![9; sizes.key + 3]);
    let s = Secret::new(&mut i.s);
    let e = Secret::new(&mut i.e);
    let Offered {
        initiator, opening, ..
    } = Initiator::offer(scheme, &i.a, s, e, &i.seed, &mut room).expect("good inputs");
    assert_eq!(opening, expected_opening);
    assert_eq!(i.e, vec![0; sizes.s], "e is wiped by the offer");

    let replier = Replier::new(
        scheme,
        Secret::new(&mut i.s1),
        Secret::new(&mut i.e1),
        Secret::new(&mut i.e2),
        Secret::new(&mut i.coins),
    );
    let replied = replier
        .reply(opening, &i.a, &mut message, &mut key)
        .expect("good inputs");
    assert_eq!(replied.message, expected_reply);
    assert_eq!(replied.key.bytes(), expected_key);
    assert_eq!(replied.digest.0[..], expected_digest);
    assert_eq!((i.s1, i.e1), (vec![0; sizes.s], vec![0; sizes.s]));
    assert_eq!((i.e2, i.coins), (vec![0; sizes.e2], vec![0; sizes.coins]));

    let finished = initiator
        .finish(replied.message, &mut peer_key)
        .expect("good inputs");
    assert_eq!(finished.key.bytes(), replied.key.bytes());
    assert_eq!(finished.digest, replied.digest);
    assert_eq!(finished.slack.largest, expected_slack.largest);
    assert_eq!(finished.slack.index, expected_slack.index);
    assert_eq!(i.s, vec![0; sizes.s], "s is wiped by finish");
    assert_eq!(format!("{:?}", finished.key), "Key(..)");
    drop((finished, replied));
    assert_eq!(key, vec![0; sizes.key + 3]);
    assert_eq!(peer_key, vec![0; sizes.key + 3]);
}

#[test]
fn exchanges() {
    for scheme in &SIX {
        exchange(Inputs::random(
            scheme,
            &mut Generator::new(77 + scheme.number),
        ));
    }
}

/// A refusal wipes the secrets as well.
#[test]
fn refusals() {
    for fixed in &SIX {
        let mut i = Inputs::random(fixed, &mut Generator::new(78));
        let (scheme, sizes) = (scheme(&i), scheme(&i).sizes());
        let mut room = vec![9; sizes.opening];
        i.e[3] = sizes.noise + 1;
        let (s, e) = (Secret::new(&mut i.s), Secret::new(&mut i.e));
        let refused = Initiator::offer(scheme, &i.a, s, e, &i.seed, &mut room);
        assert_eq!(refused.err(), Some(Refusal::SecretBeyond(3)));
        assert_eq!((i.s, i.e), (vec![0; sizes.s], vec![0; sizes.s]));
        assert_eq!(room, vec![0; sizes.opening]);

        let replier = Replier::new(
            scheme,
            Secret::new(&mut i.s1),
            Secret::new(&mut i.e1),
            Secret::new(&mut i.e2),
            Secret::new(&mut i.coins),
        );
        let (mut message, mut key) = (vec![9; sizes.reply], vec![9; sizes.key]);
        let refused = replier.reply(&room[1..], &i.a, &mut message, &mut key);
        assert_eq!(refused.err(), Some(Refusal::Length));
        assert_eq!((i.s1, i.e1), (vec![0; sizes.s], vec![0; sizes.s]));
    }
}

/// A blank message, sent or received, is refused at each of the three places,
/// and the secrets are wiped. One value of the noise is enough to be sent.
#[test]
fn blanks() {
    for fixed in &SIX {
        let good = Inputs::random(fixed, &mut Generator::new(80));
        let (scheme, sizes) = (scheme(&good), scheme(&good).sizes());
        let (mut room, mut message) = (vec![9; sizes.opening], vec![9; sizes.reply]);
        let mut key = vec![9; sizes.key];
        let offer = |i: &mut Inputs, room: &mut [u8]| {
            let (s, e) = (Secret::new(&mut i.s), Secret::new(&mut i.e));
            Initiator::offer(scheme, &i.a, s, e, &i.seed, room)
                .map(|_| ())
                .err()
        };
        let mut reply = |i: &mut Inputs, opening: &[u8]| {
            let (s1, e1) = (Secret::new(&mut i.s1), Secret::new(&mut i.e1));
            let (e2, coins) = (Secret::new(&mut i.e2), Secret::new(&mut i.coins));
            let replier = Replier::new(scheme, s1, e1, e2, coins);
            let replied = replier.reply(opening, &i.a, &mut message, &mut key);
            let told = replied.map(|_| ()).err();
            assert_eq!(key, vec![0; sizes.key], "refused, or wiped");
            (told, message.clone())
        };

        let mut i = good.clone();
        i.s.fill(0);
        i.e.fill(0);
        assert_eq!(offer(&mut i, &mut room), Some(Refusal::Blank));
        assert_eq!(room, vec![0; sizes.opening]);
        i.e[sizes.s - 1] = 1;
        assert_eq!(offer(&mut i, &mut room), None);

        // The opening has its seed and no number.
        let packed = fixed.packed_bytes();
        let start = if fixed.number < 2 { 0 } else { sizes.seed };
        let mut blank = good.opening();
        blank[start..start + packed].fill(0);
        let mut i = good.clone();
        let (told, message) = reply(&mut i, &blank);
        assert_eq!(told, Some(Refusal::Blank));
        assert_eq!(message, vec![0; sizes.reply]);
        assert_eq!((i.s1, i.e2), (vec![0; sizes.s], vec![0; sizes.e2]));

        // The reply would have none.
        let mut i = good.clone();
        i.s1.fill(0);
        i.e1.fill(0);
        let (told, message) = reply(&mut i, &good.opening());
        assert_eq!(told, Some(Refusal::Blank));
        assert_eq!(message, vec![0; sizes.reply]);
        i = good.clone();
        i.s1.fill(0);
        assert_eq!(reply(&mut i, &good.opening()).0, None);

        // The reply has its hints and no number.
        let mut i = good.clone();
        let (mut blank, _) = i.reply_and_key(&i.opening());
        blank[..packed].fill(0);
        let (s, e) = (Secret::new(&mut i.s), Secret::new(&mut i.e));
        let offered = Initiator::offer(scheme, &i.a, s, e, &i.seed, &mut room);
        let initiator = offered.expect("good inputs").initiator;
        let mut peer_key = vec![9; sizes.key];
        let refused = initiator.finish(&blank, &mut peer_key).map(|_| ());
        assert_eq!(refused.err(), Some(Refusal::Blank));
        assert_eq!((i.s, peer_key), (vec![0; sizes.s], vec![0; sizes.key]));
    }
}

/// Noise wipes its bytes, and gives what the raw call gives.
#[test]
fn noise() {
    for scheme in &Scheme::ALL {
        let sizes = scheme.sizes();
        let table = match scheme {
            Scheme::Bcns => second::table::table(),
            _ => vec![],
        };
        assert_eq!(table.len(), sizes.table);
        for (count, length) in [(sizes.s, sizes.s_bytes), (sizes.e2, sizes.e2_bytes)] {
            let mut bytes = Generator::new(79).bytes(length);
            let mut expected = vec![9; count];
            let done = wimmostry::raw::noise(scheme.number(), &bytes, &table, &mut expected);
            done.expect("good bytes");

            let mut room = vec![9; count + 3];
            let secret = Secret::noise(*scheme, Secret::new(&mut bytes), &table, &mut room);
            std::mem::forget(secret.expect("good bytes"));
            assert_eq!(bytes, vec![0; length]);
            assert_eq!(room[..count], expected);
            assert_eq!(room[count..], [0; 3]);
        }
    }
    // a table that does not ascend, and one where none is taken
    let mut table = second::table::table();
    table[60] = 0;
    let (mut bytes, mut room) = ([1; 25600], [9; 1024]);
    let refused = Secret::noise(Scheme::Bcns, Secret::new(&mut bytes), &table, &mut room);
    assert_eq!(refused.err(), Some(Refusal::NotAscending(20)));
    assert_eq!((bytes, room), ([0; 25600], [0; 1024]));
    let mut bytes = [1; 4096];
    let refused = Secret::noise(Scheme::NewHope, Secret::new(&mut bytes), &table, &mut room);
    assert_eq!(refused.err(), Some(Refusal::Length));
    assert_eq!(
        Refusal::NotAscending(20).to_string(),
        "refusal 18: the table of noise is not strictly ascending, the first at 20"
    );
}

#[test]
fn schemes_by_number() {
    for scheme in Scheme::ALL {
        assert_eq!(Scheme::try_from(scheme.number()), Ok(scheme));
    }
    for number in [6, 7, 255, u32::MAX] {
        assert_eq!(Scheme::try_from(number), Err(Refusal::NoScheme));
    }
    assert_eq!(format!("{:>8}", Scheme::NewHope), " NewHope");
}

#[test]
fn rules_by_number() {
    for rule in Rule::ALL {
        assert_eq!(Rule::try_from(rule.number()), Ok(rule));
    }
    for number in [0, 1, 13, 15, 17, u32::MAX] {
        assert_eq!(Rule::try_from(number), Err(Refusal::NoRule));
    }
    assert_eq!(format!("{:>11}", Rule::WholeWord), " whole word");
}

/// Each rule by its own number: the word 12289 is passed over by the one, and 0
/// by the other.
#[test]
fn expands() {
    let (words, mut a) = ([1, 48].repeat(1024), [9; 1024]);
    let refused = expand(Rule::LowBits, &words, &mut a);
    assert_eq!((refused, a), (Err(Refusal::RanOut(0)), [0; 1024]));
    a.fill(9);
    assert_eq!(expand(Rule::WholeWord, &words, &mut a), Ok(1024));
    assert_eq!(a, [0; 1024]);
}

#[test]
fn grows() {
    let seed = [7; 32];
    for (rule, known) in [(Rule::LowBits, 14), (Rule::WholeWord, 16)] {
        let (mut a, mut expected) = ([9; 1025], [0; 1025]);
        assert_eq!(grow(rule, &seed, &mut a), Ok(1024));
        second::calls::grow(known, &seed, &mut expected).expect("a good seed");
        assert_eq!(a, expected);
        assert_eq!(grow(rule, &seed, &mut a[..1023]), Err(Refusal::Room));
    }
}

#[test]
fn hashes() {
    let mut out = [9; 200];
    assert_eq!(shake128(b"abc", &mut out), Ok(()));
    assert_eq!(out[..], second::hash::shake128(b"abc", 200));
    assert_eq!(shake128(&[0; 65537], &mut out), Err(Refusal::Length));
    assert_eq!(out, [0; 200]);

    let digest = sha3_256(b"abc").expect("a short input");
    assert_eq!(digest.0[..], second::hash::sha3_256(b"abc"));
    assert_eq!(sha3_256(&[0; 65537]), Err(Refusal::Length));
    let mut counted = [0; 32];
    counted[..3].copy_from_slice(&[0x0f, 0xa0, 0xff]);
    let text = format!("{}", Digest(counted));
    assert_eq!(text, format!("0fa0ff{}", "0".repeat(58)));
}

#[test]
fn wipes_and_compares() {
    let (mut bytes, mut values) = ([7u8; 40], [-7i32; 40]);
    wipe(&mut bytes[3..30]);
    wipe(&mut values[3..30]);
    wipe::<u32>(&mut []);
    for k in 0..40 {
        let wiped = (3..30).contains(&k);
        assert_eq!((bytes[k], values[k]), if wiped { (0, 0) } else { (7, -7) });
    }
    let (a, mut b) = ([5; 40], [5; 40]);
    assert!(same(&a, &b) && same(&[], &[]) && !same(&a, &b[..39]));
    for bit in 0..320 {
        b[bit / 8] ^= 1 << (bit % 8);
        assert!(!same(&a, &b) && same(&a[..bit / 8], &b[..bit / 8]));
        b[bit / 8] ^= 1 << (bit % 8);
    }
}

#[test]
fn largest_sizes() {
    let most = |of: fn(Sizes) -> usize| Scheme::ALL.map(|s| of(s.sizes())).into_iter().max();
    let largest = Sizes::LARGEST;
    assert_eq!(most(|s| s.q as usize), Some(largest.q as usize));
    assert_eq!(most(|s| s.noise as usize), Some(largest.noise as usize));
    assert_eq!(most(|s| s.a), Some(largest.a));
    assert_eq!(most(|s| s.s), Some(largest.s));
    assert_eq!(most(|s| s.e2), Some(largest.e2));
    assert_eq!(most(|s| s.seed), Some(largest.seed));
    assert_eq!(most(|s| s.coins), Some(largest.coins));
    assert_eq!(most(|s| s.opening), Some(largest.opening));
    assert_eq!(most(|s| s.reply), Some(largest.reply));
    assert_eq!(most(|s| s.key), Some(largest.key));
    assert_eq!(most(|s| s.s_bytes), Some(largest.s_bytes));
    assert_eq!(most(|s| s.e2_bytes), Some(largest.e2_bytes));
    assert_eq!(most(|s| s.row), Some(largest.row));
    assert_eq!(most(|s| s.state), Some(largest.state));
}

#[test]
fn texts() {
    assert_eq!(wimmostry::version(), env!("CARGO_PKG_VERSION"));
    let told = Refusal::SecretBeyond(3).to_string();
    let text = "a secret or noise value lies beyond the largest noise";
    assert_eq!(told, format!("refusal 6: {text}, the first at 3"));
    assert_eq!(
        Refusal::NoScheme.to_string(),
        "refusal 1: the scheme is not 0 to 5"
    );
    assert_eq!(
        Refusal::NoRule.to_string(),
        "refusal 12: the rule is not 14 or 16"
    );
    assert_eq!(
        Refusal::OutOfTurn.to_string(),
        "refusal 11: no begin for this part or end, a part past its row, or rows missing"
    );
    assert_eq!(
        Refusal::Blank.to_string(),
        "refusal 17: a message's packed part is all zero bytes"
    );
}
