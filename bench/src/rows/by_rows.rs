//! Frodo by rows, whole rows at a time and in parts of eight numbers, against the
//! call on the whole matrix. All tests are included on both sides.

use super::Rows;
use crate::lent::Lent;
use crate::ours::Ours;
use crate::plain::Calls;
use second::rows::state_count;
use second::schemes::{Family, Scheme, SIX};
use wimmostry::raw::rows as calls;

/// The calls by rows, in parts of so many numbers.
pub struct ByRows<'a> {
    lent: &'a Lent,
    length: usize,
    state: Vec<u32>,
}

impl ByRows<'_> {
    pub fn of(lent: &Lent, length: usize) -> ByRows<'_> {
        ByRows { lent, length, state: vec![0; state_count(lent.scheme)] }
    }

    fn parts(lent: &Lent, length: usize) -> impl Iterator<Item = &[u32]> {
        lent.a.chunks(lent.scheme.n).flat_map(move |row| row.chunks(length))
    }

    pub fn offer(&mut self, message: &mut [u8]) {
        let l = self.lent;
        let mut done = calls::offer_begin(l.number(), &l.s, &l.e, &l.seed, &mut self.state).is_ok();
        for part in ByRows::parts(l, self.length) {
            done &= calls::offer_part(part, &mut self.state).is_ok();
        }
        assert!(done && calls::offer_end(&mut self.state, message).is_ok());
    }

    pub fn reply(&mut self, opening: &[u8], message: &mut [u8], key: &mut [u8]) {
        let l = self.lent;
        let mut done = calls::reply_begin(l.number(), opening, &l.s1, &l.e1, &l.e2, &mut self.state).is_ok();
        for part in ByRows::parts(l, self.length) {
            done &= calls::reply_part(part, &mut self.state).is_ok();
        }
        assert!(done && calls::reply_end(&mut self.state, message, key, &mut [0; 32]).is_ok());
    }
}

fn scheme(rows: &mut dyn Rows, scheme: &'static Scheme) {
    let lent = Lent::drawn(scheme, 5);
    let (ours, name) = (Ours(&lent), scheme.name);
    let (mut opening, mut reply, mut key) = (vec![0; scheme.opening_bytes()], vec![0; scheme.reply_bytes()], vec![0; scheme.key_bytes]);
    let (mut x, mut y, mut z) = (opening.clone(), reply.clone(), key.clone());
    for (cut, length) in [("whole rows", scheme.n), ("parts of 8", 8)] {
        let mut by_rows = ByRows::of(&lent, length);
        ours.offer(&mut opening);
        by_rows.offer(&mut x);
        ours.reply(&opening, &mut reply, &mut key);
        by_rows.reply(&opening, &mut y, &mut z);
        assert!((&x, &y, &z) == (&opening, &reply, &key), "by rows as on the whole");
        let whole = "the whole matrix";
        rows.row(&format!("{name}, Offer, {cut}"), whole, &mut || by_rows.offer(&mut x), &mut || ours.offer(&mut opening));
        rows.row(&format!("{name}, Reply, {cut}"), whole, &mut || by_rows.reply(&opening, &mut y, &mut z), &mut || {
            ours.reply(&opening, &mut reply, &mut key);
        });
    }
}

pub fn rows(rows: &mut dyn Rows) {
    SIX.iter().filter(|it| it.family == Family::Frodo).for_each(|it| scheme(rows, it));
}
