//! 01, "Reconciliation", under "Frodo".

use crate::schemes::Scheme;
use crate::signed::{distance, remainder};

pub struct Rule {
    pub q: i128,
    pub b: usize,
}

impl Rule {
    pub fn of(scheme: &Scheme) -> Rule {
        Rule {
            q: scheme.q,
            b: scheme.b.expect("Frodo has a B"),
        }
    }

    /// I, the rounding interval.
    pub fn interval(&self) -> i128 {
        self.q / (1 << self.b)
    }

    pub fn hint(&self, v: i128) -> u32 {
        (2 * v / self.interval() % 2) as u32
    }

    pub fn key(&self, v: i128) -> u32 {
        let i = self.interval();
        ((2 * v + i) / (2 * i) % (1 << self.b)) as u32
    }

    /// The initiator's key: that of the z nearest to w, around the circle,
    /// among those with the given hint. Where two are nearest, both have the
    /// same key.
    pub fn peer(&self, w: i128, hint: u32) -> u32 {
        // The two z at each distance from w, from the nearest on.
        for away in 0..self.q {
            let both = [w - away, w + away].map(|z| remainder(z, self.q));
            let mut keys = both
                .into_iter()
                .filter(|&z| self.hint(z) == hint)
                .map(|z| self.key(z));
            if let Some(key) = keys.next() {
                assert!(keys.all(|other| other == key), "no tie between keys");
                return key;
            }
        }
        panic!("each hint is given somewhere")
    }

    /// All values that have the hint.
    pub fn having(&self, hint: u32) -> Vec<i128> {
        (0..self.q).filter(|&z| self.hint(z) == hint).collect()
    }

    /// 02, request f: how far w lies, around the circle, from the nearest of
    /// the values that have the given hint.
    pub fn slack(&self, w: i128, having: &[i128]) -> i128 {
        let distances = having.iter().map(|z| distance(w - z, self.q));
        distances.min().expect("each hint is given somewhere")
    }
}
