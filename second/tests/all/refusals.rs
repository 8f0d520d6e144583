//! Each refusal of Offer, Reply and Finish in each scheme where it can arise,
//! with its place, the order among them, and zeros in every output. Number 17 is
//! in `blank`.

use crate::inputs::Inputs;
use second::calls;
use second::packing::{pack, unpack};
use second::refusal::{refusal, Refusal};
use second::schemes::{Family, Scheme, SIX};

/// Room in the outputs: of the answer, and more.
fn rooms(answer: usize) -> [usize; 2] {
    [answer, answer + 11]
}

/// Offer refuses so, whatever the room, and zeroes.
pub fn offer_refuses(inputs: &Inputs, expected: Refusal) {
    for room in rooms(inputs.scheme.opening_bytes()) {
        let mut opening = vec![0x55; room];
        assert_eq!(inputs.offer(&mut opening), Err(expected));
        assert_eq!(opening, vec![0; room]);
    }
}

pub fn reply_refuses(inputs: &Inputs, message: &[u8], expected: Refusal) {
    for room in rooms(inputs.scheme.reply_bytes()) {
        let mut reply = vec![0x55; room];
        let mut key = vec![0x66; inputs.scheme.key_bytes + 1];
        let mut digest = [0x77; 33];
        let answer = inputs.reply(message, &mut reply, &mut key, &mut digest);
        assert_eq!(answer, Err(expected));
        assert_eq!(reply, vec![0; room]);
        assert_eq!(key, vec![0; key.len()]);
        assert_eq!(digest, [0; 33]);
    }
}

pub fn finish_refuses(inputs: &Inputs, message: &[u8], expected: Refusal) {
    for room in rooms(inputs.scheme.key_bytes) {
        let (mut key, mut digest) = (vec![0x55; room], [0x77; 33]);
        let answer = inputs.finish(message, &mut key, &mut digest);
        assert_eq!(answer, Err(expected));
        assert_eq!(key, vec![0; room]);
        assert_eq!(digest, [0; 33]);
    }
}

/// An opening and a reply of the right lengths, every byte 1, so that neither is
/// blank.
fn messages(s: &Scheme) -> (Vec<u8>, Vec<u8>) {
    (vec![1; s.opening_bytes()], vec![1; s.reply_bytes()])
}

/// Where the packed part of an opening starts.
pub fn start(s: &Scheme) -> usize {
    if s.family == Family::Frodo {
        16
    } else {
        0
    }
}

/// Sets a packed number of a message.
pub fn set(s: &Scheme, message: &mut [u8], start: usize, index: usize, number: u32) {
    let packed = &mut message[start..start + s.packed_bytes()];
    let mut numbers = unpack(packed, s.width);
    numbers[index] = number;
    packed.copy_from_slice(&pack(&numbers, s.width));
}

const NO_SCHEMES: [u64; 6] = [6, 7, 255, 256, 1 << 32, u64::MAX];

#[test]
fn number_1() {
    let i = Inputs::zero(&SIX[0]);
    for scheme in NO_SCHEMES {
        let (mut first, mut second) = (vec![0x55; 5000], vec![0x66; 200]);
        let answer = calls::offer(scheme, &i.a, &i.s, &i.e, &i.seed, &mut first);
        assert_eq!(answer, Err(refusal(1, 0)));
        assert_eq!(first, [0; 5000]);

        first.fill(0x55);
        let mut digest = [0x77; 40];
        let answer = calls::reply(
            scheme,
            &[0; 4096],
            &i.a,
            &i.s1,
            &i.e1,
            &i.e2,
            &i.coins,
            &mut first,
            &mut second,
            &mut digest,
        );
        assert_eq!(answer, Err(refusal(1, 0)));
        assert_eq!(first, [0; 5000]);
        assert_eq!(second, [0; 200]);
        assert_eq!(digest, [0; 40]);

        second.fill(0x66);
        digest.fill(0x77);
        let answer = calls::finish(scheme, &[0; 4224], &i.s, &mut second, &mut digest);
        assert_eq!(answer, Err(refusal(1, 0)));
        assert_eq!(second, [0; 200]);
        assert_eq!(digest, [0; 40]);
    }
    assert_eq!(
        calls::offer(6, &[], &[], &[], &[], &mut []),
        Err(refusal(1, 0))
    );
}

/// Changes that make one input's length wrong.
type Change = fn(&mut Inputs);

fn shorten<T>(input: &mut Vec<T>) {
    input.pop();
}

#[test]
fn number_2_in_offer() {
    let longer: [Change; 4] = [
        |i| i.a.push(0),
        |i| i.s.push(0),
        |i| i.e.push(0),
        |i| i.seed.push(0),
    ];
    let shorter: [Change; 4] = [
        |i| shorten(&mut i.a),
        |i| shorten(&mut i.s),
        |i| shorten(&mut i.e),
        |i| shorten(&mut i.seed),
    ];
    for s in &SIX {
        for (at, change) in longer.iter().chain(&shorter).enumerate() {
            // BCNS has no seed to be shorter.
            if at == 7 && s.seed_bytes() == 0 {
                continue;
            }
            let mut bad = Inputs::zero(s);
            change(&mut bad);
            offer_refuses(&bad, refusal(2, 0));
        }
    }
}

#[test]
fn number_2_in_reply() {
    let longer: [Change; 5] = [
        |i| i.a.push(0),
        |i| i.s1.push(0),
        |i| i.e1.push(0),
        |i| i.e2.push(0),
        |i| i.coins.push(0),
    ];
    let shorter: [Change; 5] = [
        |i| shorten(&mut i.a),
        |i| shorten(&mut i.s1),
        |i| shorten(&mut i.e1),
        |i| shorten(&mut i.e2),
        |i| shorten(&mut i.coins),
    ];
    for s in &SIX {
        let (opening, _) = messages(s);
        for (at, change) in longer.iter().chain(&shorter).enumerate() {
            // Frodo has no coins to be fewer.
            if at == 9 && s.coin_bytes() == 0 {
                continue;
            }
            let mut bad = Inputs::zero(s);
            change(&mut bad);
            reply_refuses(&bad, &opening, refusal(2, 0));
        }
        let good = Inputs::zero(s);
        for length in [0, opening.len() - 1, opening.len() + 1] {
            reply_refuses(&good, &vec![0; length], refusal(2, 0));
        }
    }
}

#[test]
fn number_2_in_finish() {
    for s in &SIX {
        let (_, reply) = messages(s);
        let good = Inputs::zero(s);
        for length in [0, reply.len() - 1, reply.len() + 1] {
            finish_refuses(&good, &vec![0; length], refusal(2, 0));
        }
        let mut bad = good.clone();
        bad.s.push(0);
        finish_refuses(&bad, &reply, refusal(2, 0));
        bad.s.clear();
        finish_refuses(&bad, &reply, refusal(2, 0));
    }
}

#[test]
fn number_3() {
    for s in &SIX {
        let good = Inputs::zero(s);
        let (opening, reply) = messages(s);
        let [r, k] = [s.reply_bytes(), s.key_bytes];
        for missing in [1, 2, k] {
            let mut output = vec![0x55; s.opening_bytes() - missing];
            assert_eq!(good.offer(&mut output), Err(refusal(3, 0)));
            assert_eq!(output, vec![0; output.len()]);

            let left = 32 - missing.min(32);
            for [reply_room, key_room, room] in [
                [r - missing, k + 2, 34],
                [r + 2, k - missing, 34],
                [r + 2, k + 2, left],
            ] {
                let mut output = vec![0x55; reply_room];
                let (mut key, mut digest) = (vec![0x66; key_room], vec![0x77; room]);
                let answer = good.reply(&opening, &mut output, &mut key, &mut digest);
                assert_eq!(answer, Err(refusal(3, 0)));
                assert_eq!(output, vec![0; reply_room]);
                assert_eq!(key, vec![0; key_room]);
                assert_eq!(digest, vec![0; room]);
            }

            for [key_room, room] in [[k - missing, 34], [k + 2, left]] {
                let (mut key, mut digest) = (vec![0x66; key_room], vec![0x77; room]);
                let answer = good.finish(&reply, &mut key, &mut digest);
                assert_eq!(answer, Err(refusal(3, 0)));
                assert_eq!(key, vec![0; key_room]);
                assert_eq!(digest, vec![0; room]);
            }
        }
    }
}

#[test]
fn number_4() {
    for s in &SIX {
        let (opening, _) = messages(s);
        let last = s.public_count() - 1;
        for place in [0, 1, last / 2, last] {
            for number in [s.q as u32, u32::MAX] {
                let mut bad = Inputs::zero(s);
                bad.a[place] = number;
                bad.a[last] = u32::MAX;
                offer_refuses(&bad, refusal(4, place));
                reply_refuses(&bad, &opening, refusal(4, place));
            }
        }
    }
}

#[test]
fn number_5_in_bcns_and_newhope() {
    for s in &SIX[..2] {
        let good = Inputs::zero(s);
        let all_ones = ((1u64 << s.width) - 1) as u32;
        for place in [0, 1, 511, 1023] {
            for number in [s.q as u32, all_ones] {
                let (mut opening, mut reply) = messages(s);
                set(s, &mut opening, 0, place, number);
                set(s, &mut opening, 0, 1023, all_ones);
                reply_refuses(&good, &opening, refusal(5, place));
                set(s, &mut reply, 0, place, number);
                set(s, &mut reply, 0, 1023, all_ones);
                finish_refuses(&good, &reply, refusal(5, place));
            }
        }
    }
}

#[test]
fn number_5_never_in_frodo() {
    for s in &SIX[2..] {
        let good = Inputs::sparse(s);
        let (opening, reply) = messages(s);
        good.reply_and_key(&vec![0xFF; opening.len()]);
        good.peer(&vec![0xFF; reply.len()]);
    }
}

#[test]
fn the_largest_numbers_pass() {
    for s in &SIX[..3] {
        let largest = s.largest_noise as i32;
        let mut inputs = Inputs::zero(s);
        inputs.a.fill((s.q - 1) as u32);
        for values in [&mut inputs.s, &mut inputs.s1] {
            values.fill(largest);
        }
        for values in [&mut inputs.e, &mut inputs.e1, &mut inputs.e2] {
            values.fill(-largest);
        }
        inputs.opening();
        let (mut opening, mut reply) = messages(s);
        for place in 0..4 {
            set(s, &mut opening, start(s), place, (s.q - 1) as u32);
            set(s, &mut reply, 0, place, (s.q - 1) as u32);
        }
        inputs.reply_and_key(&opening);
        inputs.peer(&reply);
    }
}

/// Values that lie beyond the largest noise, the far ones too.
fn beyond(s: &Scheme) -> [i32; 4] {
    let largest = s.largest_noise as i32;
    [largest + 1, -largest - 1, i32::MAX, i32::MIN]
}

#[test]
fn number_6() {
    let of_offer: [fn(&mut Inputs) -> &mut Vec<i32>; 2] = [|i| &mut i.s, |i| &mut i.e];
    let of_reply: [fn(&mut Inputs) -> &mut Vec<i32>; 3] =
        [|i| &mut i.s1, |i| &mut i.e1, |i| &mut i.e2];
    for s in &SIX {
        let (opening, reply) = messages(s);
        for value in beyond(s) {
            for values in of_offer {
                let mut bad = Inputs::zero(s);
                let last = values(&mut bad).len() - 1;
                values(&mut bad)[last] = value;
                offer_refuses(&bad, refusal(6, last));
                values(&mut bad)[3] = value;
                offer_refuses(&bad, refusal(6, 3));
            }
            for values in of_reply {
                let mut bad = Inputs::zero(s);
                let last = values(&mut bad).len() - 1;
                values(&mut bad)[last] = value;
                reply_refuses(&bad, &opening, refusal(6, last));
                values(&mut bad)[0] = value;
                reply_refuses(&bad, &opening, refusal(6, 0));
            }
            let mut bad = Inputs::zero(s);
            bad.s[7] = value;
            finish_refuses(&bad, &reply, refusal(6, 7));
        }
    }
}

#[test]
fn order_in_offer() {
    for s in &SIX {
        let largest = s.largest_noise as i32;
        let mut bad = Inputs::zero(s);
        offer_refuses(&bad, refusal(17, 0));
        bad.e[1] = largest + 1;
        offer_refuses(&bad, refusal(6, 1));
        bad.s[2] = largest + 1;
        offer_refuses(&bad, refusal(6, 2));
        bad.a[3] = s.q as u32;
        offer_refuses(&bad, refusal(4, 3));
        assert_eq!(bad.offer(&mut [1; 9]), Err(refusal(3, 0)));
        bad.seed.push(1);
        assert_eq!(bad.offer(&mut [1; 9]), Err(refusal(2, 0)));
        let (i, number) = (&bad, 6 + s.number);
        let answer = calls::offer(number, &i.a, &i.s, &i.e, &i.seed, &mut [1; 9]);
        assert_eq!(answer, Err(refusal(1, 0)));
    }
}

#[test]
fn order_in_reply() {
    for s in &SIX {
        let largest = s.largest_noise as i32;
        let (mut opening, _) = messages(s);
        let mut bad = Inputs::zero(s);
        reply_refuses(&bad, &opening, refusal(17, 0));
        bad.e2[1] = largest + 1;
        reply_refuses(&bad, &opening, refusal(6, 1));
        bad.e1[2] = largest + 1;
        reply_refuses(&bad, &opening, refusal(6, 2));
        bad.s1[3] = largest + 1;
        reply_refuses(&bad, &opening, refusal(6, 3));
        opening.fill(0);
        reply_refuses(&bad, &opening, refusal(17, 0));
        if s.family != Family::Frodo {
            set(s, &mut opening, 0, 4, s.q as u32);
            reply_refuses(&bad, &opening, refusal(5, 4));
        }
        bad.a[5] = s.q as u32;
        reply_refuses(&bad, &opening, refusal(4, 5));
        let (mut reply, mut key) = (vec![1; s.reply_bytes()], vec![1; s.key_bytes]);
        let mut digest = [1; 32];
        let answer = bad.reply(&opening, &mut reply, &mut key, &mut digest[1..]);
        assert_eq!(answer, Err(refusal(3, 0)));
        let answer = bad.reply(&opening, &mut reply, &mut key[1..], &mut digest);
        assert_eq!(answer, Err(refusal(3, 0)));
        let answer = bad.reply(&opening, &mut reply[1..], &mut key, &mut digest);
        assert_eq!(answer, Err(refusal(3, 0)));
        bad.coins.push(1);
        let answer = bad.reply(&opening, &mut reply, &mut key, &mut digest[1..]);
        assert_eq!(answer, Err(refusal(2, 0)));
    }
}

#[test]
fn order_in_finish() {
    for s in &SIX {
        let (_, mut reply) = messages(s);
        let mut bad = Inputs::zero(s);
        bad.s[1] = s.largest_noise as i32 + 1;
        finish_refuses(&bad, &reply, refusal(6, 1));
        reply.fill(0);
        finish_refuses(&bad, &reply, refusal(17, 0));
        if s.family != Family::Frodo {
            set(s, &mut reply, 0, 2, s.q as u32);
            finish_refuses(&bad, &reply, refusal(5, 2));
        }
        let answer = bad.finish(&reply, &mut [1; 7], &mut [1; 32]);
        assert_eq!(answer, Err(refusal(3, 0)));
        let answer = bad.finish(&reply, &mut [1; 128], &mut [1; 31]);
        assert_eq!(answer, Err(refusal(3, 0)));
        bad.s.pop();
        let answer = bad.finish(&reply, &mut [1; 128], &mut [1; 31]);
        assert_eq!(answer, Err(refusal(2, 0)));
        let answer = calls::finish(6, &reply, &bad.s, &mut [1; 7], &mut [1; 31]);
        assert_eq!(answer, Err(refusal(1, 0)));
    }
}
