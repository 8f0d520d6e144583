//! Whole exchanges that agree, and what lies behind an answer.

use crate::generator::Generator;
use crate::inputs::Inputs;
use second::calls::Bench;
use second::hash::sha3_256;
use second::schemes::{Scheme, SIX};

fn agrees(scheme: &'static Scheme, rounds: u64) {
    for round in 0..rounds {
        let mut generator = Generator::new(40 + 10 * round + scheme.number);
        let inputs = Inputs::random(scheme, &mut generator);
        let opening = inputs.opening();
        let (reply, key) = inputs.reply_and_key(&opening);
        assert_eq!(inputs.peer(&reply), key);
        assert_ne!(key, vec![0; key.len()]);
        assert_eq!(inputs.bench(), Ok(Bench::Agree));
    }
}

#[test]
fn bcns() {
    agrees(&SIX[0], 3);
}

#[test]
fn newhope() {
    agrees(&SIX[1], 3);
}

#[test]
fn frodo_challenge() {
    agrees(&SIX[2], 3);
}

#[test]
fn frodo_classical() {
    agrees(&SIX[3], 2);
}

#[test]
fn frodo_recommended() {
    agrees(&SIX[4], 1);
}

#[test]
fn frodo_paranoid() {
    agrees(&SIX[5], 1);
}

#[test]
fn bcns_at_the_largest_noise() {
    // d is as large as it can be: all products have the same sign somewhere.
    let mut generator = Generator::new(50);
    let mut inputs = Inputs::random(&SIX[0], &mut generator);
    for values in [&mut inputs.s, &mut inputs.e, &mut inputs.e2] {
        values.fill(51);
    }
    inputs.s1.fill(51);
    inputs.e1.fill(-51);
    assert_eq!(inputs.bench(), Ok(Bench::Agree));
    inputs.s1.fill(-51);
    inputs.e1.fill(51);
    inputs.e2.fill(-51);
    assert_eq!(inputs.bench(), Ok(Bench::Agree));
}

#[test]
fn the_same_answer_whatever_the_outputs_held() {
    for s in &SIX[..3] {
        let mut generator = Generator::new(60 + s.number);
        let inputs = Inputs::random(s, &mut generator);
        let opening = inputs.opening();
        let (reply, key) = inputs.reply_and_key(&opening);

        let mut longer = generator.bytes(s.opening_bytes() + 9);
        assert_eq!(inputs.offer(&mut longer), Ok(s.opening_bytes()));
        assert_eq!(longer, [&opening[..], &[0; 9]].concat());

        let mut longer = generator.bytes(s.reply_bytes() + 7);
        let mut longer_key = generator.bytes(s.key_bytes + 5);
        let mut longer_digest = generator.bytes(32 + 2);
        let written = (s.reply_bytes(), s.key_bytes, 32);
        let answer = inputs.reply(&opening, &mut longer, &mut longer_key, &mut longer_digest);
        assert_eq!(answer, Ok(written));
        assert_eq!(longer, [&reply[..], &[0; 7]].concat());
        assert_eq!(longer_key, [&key[..], &[0; 5]].concat());
        assert_eq!(longer_digest, [&sha3_256(&key)[..], &[0; 2]].concat());

        let mut longer_key = generator.bytes(s.key_bytes + 3);
        let mut longer_digest = generator.bytes(32 + 4);
        let answer = inputs.finish(&reply, &mut longer_key, &mut longer_digest);
        assert_eq!(answer, Ok((s.key_bytes, 32)));
        assert_eq!(longer_key, [&key[..], &[0; 3]].concat());
        assert_eq!(longer_digest, [&sha3_256(&key)[..], &[0; 4]].concat());
    }
}
