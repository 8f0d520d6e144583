//! What the tests and the zeroing cost: each call with its very last value bad,
//! so that every test is made and nothing else, against the whole call. What is
//! about to be sent is tested after the work; `blank` has that.

use super::Rows;
use crate::lent::Lent;
use crate::ours::Ours;
use crate::plain::Calls;
use second::schemes::{Scheme, SIX};

/// The values with the last one beyond any scheme's noise.
fn spoiled(values: &[i32]) -> Vec<i32> {
    let mut values = values.to_vec();
    *values.last_mut().expect("no list is empty") = 52;
    values
}

fn scheme(rows: &mut dyn Rows, scheme: &'static Scheme) {
    let lent = Lent::drawn(scheme, 5);
    let (l, number, ours, name) = (&lent, lent.number(), Ours(&lent), scheme.name);
    let (mut opening, mut reply, mut key) = (vec![0; scheme.opening_bytes()], vec![0; scheme.reply_bytes()], vec![0; scheme.key_bytes]);
    ours.offer(&mut opening);
    ours.reply(&opening, &mut reply, &mut key);
    let (s, e, e2) = (spoiled(&l.s), spoiled(&l.e), spoiled(&l.e2));
    let (mut x, mut y, mut z, mut digest) = (opening.clone(), reply.clone(), key.clone(), [0; 32]);
    let whole = "the whole call";

    rows.row(&format!("{name}, Offer"), whole, &mut || assert!(wimmostry::raw::offer(number, &l.a, &l.s, &e, &l.seed, &mut x).is_err()), &mut || {
        ours.offer(&mut opening);
    });
    rows.row(
        &format!("{name}, Reply"),
        whole,
        &mut || assert!(wimmostry::raw::reply(number, &opening, &l.a, &l.s1, &l.e1, &e2, &l.coins, &mut y, &mut z, &mut digest).is_err()),
        &mut || ours.reply(&opening, &mut reply, &mut key),
    );
    rows.row(&format!("{name}, Finish"), whole, &mut || assert!(wimmostry::raw::finish(number, &reply, &s, &mut z, &mut digest).is_err()), &mut || {
        ours.finish(&reply, &mut key);
    });
}

pub fn rows(rows: &mut dyn Rows) {
    SIX.iter().for_each(|it| scheme(rows, it));
}
