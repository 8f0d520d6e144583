//! 02, request l: messages whose packed part is all zero bytes, received and
//! about to be sent. Its place in the order is in `refusals`.

use crate::generator::Generator;
use crate::inputs::Inputs;
use crate::refusals::{finish_refuses, offer_refuses, reply_refuses, set, start};
use second::refusal::{refusal, Refusal};
use second::schemes::{Scheme, SIX};
use second::transform::transform;

const BLANK: Refusal = Refusal {
    number: 17,
    place: 0,
};

fn random(s: &'static Scheme) -> Inputs {
    Inputs::random(s, &mut Generator::new(70 + s.number))
}

/// A message with every byte the given one, but its packed part zero.
fn blank(s: &Scheme, start: usize, length: usize, other: u8) -> Vec<u8> {
    let mut message = vec![other; length];
    message[start..start + s.packed_bytes()].fill(0);
    message
}

/// The first, a middle and the last index below a count.
fn three(count: usize) -> [usize; 3] {
    [0, count / 2, count - 1]
}

#[test]
fn zero_secret_and_noise_in_offer() {
    for s in &SIX {
        let mut inputs = random(s);
        inputs.s.fill(0);
        inputs.opening();
        inputs.e.fill(0);
        offer_refuses(&inputs, BLANK);
        for at in three(s.noise_count()) {
            inputs.e[at] = -1;
            inputs.opening();
            inputs.e[at] = 0;
        }
        inputs.s[s.secret_count() / 2] = 1;
        inputs.opening();
    }
}

#[test]
fn zero_secret_and_noise_in_reply() {
    for s in &SIX {
        let mut inputs = random(s);
        let opening = inputs.opening();
        inputs.s1.fill(0);
        inputs.reply_and_key(&opening);
        // e'' and the coins go into the hints, which don't count.
        inputs.e1.fill(0);
        reply_refuses(&inputs, &opening, BLANK);
        for at in three(s.noise_count()) {
            inputs.e1[at] = -1;
            inputs.reply_and_key(&opening);
            inputs.e1[at] = 0;
        }
        inputs.s1[s.secret_count() / 2] = 1;
        inputs.reply_and_key(&opening);
    }
}

#[test]
fn what_is_sent_decides_and_not_the_secret() {
    // a is zero, so e alone is sent.
    for s in &SIX {
        let mut inputs = Inputs::zero(s);
        (inputs.s[1], inputs.s1[1]) = (1, 1);
        offer_refuses(&inputs, BLANK);
        reply_refuses(&inputs, &vec![1; s.opening_bytes()], BLANK);
    }
    // as + e is zero, and neither s nor e is: a is 1, in NewHope transformed.
    for s in &SIX[..2] {
        let mut inputs = Inputs::zero(s);
        match s.number {
            0 => inputs.a[0] = 1,
            _ => inputs.a.fill(1),
        }
        (inputs.s[3], inputs.e[3]) = (1, -1);
        offer_refuses(&inputs, BLANK);
        inputs.e[4] = 1;
        inputs.opening();
    }
}

#[test]
fn received_whatever_seed_and_hints_hold() {
    for s in &SIX {
        let inputs = random(s);
        for other in [0, 1, 255] {
            let opening = blank(s, start(s), s.opening_bytes(), other);
            reply_refuses(&inputs, &opening, BLANK);
            let reply = blank(s, 0, s.reply_bytes(), other);
            finish_refuses(&inputs, &reply, BLANK);
        }
    }
}

#[test]
fn received_with_one_bit_that_is_not_zero() {
    for s in &SIX {
        let inputs = random(s);
        for at in three(s.packed_bytes()) {
            for byte in [1, 16] {
                let mut opening = blank(s, start(s), s.opening_bytes(), 0);
                opening[start(s) + at] = byte;
                inputs.reply_and_key(&opening);
                let mut reply = blank(s, 0, s.reply_bytes(), 0);
                reply[at] = byte;
                inputs.peer(&reply);
            }
        }
    }
}

#[test]
fn newhopes_zero_is_zero_transformed() {
    // The packed part is a transform, and only zero has the transform zero.
    let mut one = vec![0; 1024];
    assert_eq!(transform(&one), vec![0; 1024]);
    one[1023] = 1;
    assert!(transform(&one).iter().all(|&number| number != 0));
}

#[test]
fn faults_before_and_after_a_received_part() {
    for s in &SIX {
        let beyond = s.largest_noise as i32 + 1;
        let mut bad = random(s);
        let mut opening = blank(s, start(s), s.opening_bytes(), 7);
        let mut reply = blank(s, 0, s.reply_bytes(), 7);

        // Later: a secret beyond the bound.
        (bad.s[0], bad.s1[0]) = (beyond, -beyond);
        reply_refuses(&bad, &opening, BLANK);
        finish_refuses(&bad, &reply, BLANK);

        // Earlier: a length, a room, a public number.
        opening.push(0);
        reply_refuses(&bad, &opening, refusal(2, 0));
        opening.pop();
        reply.push(0);
        finish_refuses(&bad, &reply, refusal(2, 0));
        reply.pop();
        let (mut room, mut key) = (vec![9; s.reply_bytes()], vec![9; s.key_bytes]);
        let mut short = [9; 31];
        let answer = bad.reply(&opening, &mut room, &mut key, &mut short);
        assert_eq!(answer, Err(refusal(3, 0)));
        let answer = bad.finish(&reply, &mut key, &mut short);
        assert_eq!(answer, Err(refusal(3, 0)));
        bad.a[2] = u32::MAX;
        reply_refuses(&bad, &opening, refusal(4, 2));

        // A number of q or more is not zero, so it is 5 alone.
        if s.number < 2 {
            bad.a[2] = 0;
            set(s, &mut opening, 0, 1023, s.q as u32);
            reply_refuses(&bad, &opening, refusal(5, 1023));
            set(s, &mut reply, 0, 1023, s.q as u32);
            finish_refuses(&bad, &reply, refusal(5, 1023));
        }
    }
}

#[test]
fn faults_before_a_part_about_to_be_sent() {
    for s in &SIX {
        let beyond = s.largest_noise as i32 + 1;
        let mut bad = random(s);
        let opening = bad.opening();
        for zero in [&mut bad.s, &mut bad.e, &mut bad.s1, &mut bad.e1] {
            zero.fill(0);
        }
        assert_eq!(bad.bench(), Err(BLANK));
        bad.e2[5] = beyond;
        offer_refuses(&bad, BLANK);
        reply_refuses(&bad, &opening, refusal(6, 5));
        // Offer's 17 comes before all of Reply's refusals.
        assert_eq!(bad.bench(), Err(BLANK));
        bad.coins.push(0);
        assert_eq!(bad.bench(), Err(BLANK));
        bad.e[5] = 1;
        assert_eq!(bad.bench(), Err(refusal(2, 0)));
        bad.e[5] = 0;
        bad.a[1] = u32::MAX;
        offer_refuses(&bad, refusal(4, 1));
        assert_eq!(bad.bench(), Err(refusal(4, 1)));
    }
}
