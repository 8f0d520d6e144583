//! What the test for a blank message costs: each call on messages that are blank
//! but for their last number, where the search goes to the end, against the same
//! call on drawn ones, where the first number ends it. All else is the same work,
//! since nothing of it depends on what the numbers are. NewHope sends transforms,
//! which no noise makes so: there the search in what is received alone is longer.

use super::Rows;
use crate::lent::Lent;
use crate::ours::Ours;
use crate::plain::Calls;
use second::schemes::{Family, Scheme, SIX};

/// The message with its packed part zero but for its last byte, which is of the
/// last number alone.
fn last_number(scheme: &Scheme, start: usize, message: &[u8]) -> Vec<u8> {
    let mut message = message.to_vec();
    let packed = &mut message[start..start + scheme.packed_bytes()];
    packed.fill(0);
    *packed.last_mut().expect("no part is empty") = 1;
    message
}

fn scheme(rows: &mut dyn Rows, scheme: &'static Scheme) {
    let lent = Lent::drawn(scheme, 5);
    let (l, number, ours, name) = (&lent, lent.number(), Ours(&lent), scheme.name);
    let (mut opening, mut reply, mut key) = (vec![0; scheme.opening_bytes()], vec![0; scheme.reply_bytes()], vec![0; scheme.key_bytes]);
    ours.offer(&mut opening);
    ours.reply(&opening, &mut reply, &mut key);
    let start = if scheme.family == Family::Frodo { scheme.seed_bytes() } else { 0 };
    let (received, answered) = (last_number(scheme, start, &opening), last_number(scheme, 0, &reply));
    let zeros = vec![0; scheme.secret_count()];
    let mut noise = zeros.clone();
    *noise.last_mut().expect("no list is empty") = 1;
    let (mut x, mut y, mut z, mut digest) = (opening.clone(), reply.clone(), key.clone(), [0; 32]);
    let drawn = "the call on drawn numbers";

    rows.row(&format!("{name}, Offer"), drawn, &mut || assert!(wimmostry::raw::offer(number, &l.a, &zeros, &noise, &l.seed, &mut x).is_ok()), &mut || {
        ours.offer(&mut opening);
    });
    rows.row(
        &format!("{name}, Reply"),
        drawn,
        &mut || assert!(wimmostry::raw::reply(number, &received, &l.a, &zeros, &noise, &l.e2, &l.coins, &mut y, &mut z, &mut digest).is_ok()),
        &mut || ours.reply(&opening, &mut reply, &mut key),
    );
    rows.row(&format!("{name}, Finish"), drawn, &mut || assert!(wimmostry::raw::finish(number, &answered, &l.s, &mut z, &mut digest).is_ok()), &mut || {
        ours.finish(&reply, &mut key);
    });
}

pub fn rows(rows: &mut dyn Rows) {
    SIX.iter().for_each(|it| scheme(rows, it));
}
