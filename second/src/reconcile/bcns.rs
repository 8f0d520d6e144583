//! 01, "Reconciliation", under "BCNS".

use crate::schemes::Scheme;
use crate::signed::{distance, remainder};

/// The rule for one q and one reach, so that small ones can be tested whole.
pub struct Rule {
    pub q: i128,
    pub reach: i128,
}

/// A run of z, first to last, that all have this hint and this key bit.
#[derive(Debug, PartialEq, Eq)]
pub struct Run {
    pub first: i128,
    pub last: i128,
    pub hint: u32,
    pub key: u32,
}

impl Rule {
    pub fn of(scheme: &Scheme) -> Rule {
        Rule {
            q: scheme.q,
            reach: 1073741823,
        }
    }

    /// z = 2v - c modulo 2q.
    pub fn z(&self, v: i128, coin: u32) -> i128 {
        remainder(2 * v - c(coin), 2 * self.q)
    }

    pub fn hint(&self, z: i128) -> u32 {
        (self.step(z) % 2) as u32
    }

    pub fn key(&self, z: i128) -> u32 {
        (self.at_least_the_low_end(z) && self.at_most_the_high_end(z)) as u32
    }

    /// The initiator's bit, from w and the hint.
    pub fn peer(&self, w: i128, hint: u32) -> u32 {
        let runs = self.runs();
        let mut zeros = runs.iter().filter(|run| run.hint == hint && run.key == 0);
        let near = zeros.any(|run| self.away(2 * w, run) <= self.reach);
        !near as u32
    }

    /// 02, request f: how far 2w lies, modulo 2q, from the nearest z that has
    /// the hint.
    pub fn slack(&self, w: i128, hint: u32) -> i128 {
        let runs = self.runs();
        let having = runs.iter().filter(|run| run.hint == hint);
        let distances = having.map(|run| self.away(2 * w, run));
        distances.min().expect("each hint is given somewhere")
    }

    /// floor(2z/q), which never falls as z grows.
    fn step(&self, z: i128) -> i128 {
        2 * z / self.q
    }

    fn at_least_the_low_end(&self, z: i128) -> bool {
        (self.q + 1) / 2 <= z
    }

    fn at_most_the_high_end(&self, z: i128) -> bool {
        z <= (3 * self.q - 1) / 2
    }

    /// All z from 0 to 2q - 1 in runs. The three things that hint and key are
    /// made of change only one way as z grows, so a run's last z can be found
    /// by halving.
    pub fn runs(&self) -> Vec<Run> {
        let mut runs = vec![];
        let mut first = 0;
        while first < 2 * self.q {
            let last = self.last_alike(first);
            runs.push(Run {
                first,
                last,
                hint: self.hint(first),
                key: self.key(first),
            });
            first = last + 1;
        }
        runs
    }

    /// The last z up to 2q - 1 that is like the given one.
    fn last_alike(&self, first: i128) -> i128 {
        let (mut alike, mut beyond) = (first, 2 * self.q);
        while beyond - alike > 1 {
            let middle = (alike + beyond) / 2;
            if self.alike(first, middle) {
                alike = middle;
            } else {
                beyond = middle;
            }
        }
        alike
    }

    fn alike(&self, z: i128, other: i128) -> bool {
        self.step(z) == self.step(other)
            && self.at_least_the_low_end(z) == self.at_least_the_low_end(other)
            && self.at_most_the_high_end(z) == self.at_most_the_high_end(other)
    }

    /// How far x is, modulo 2q, from the nearest z of the run: nothing inside
    /// it, else as far as from the nearer end.
    fn away(&self, x: i128, run: &Run) -> i128 {
        let x = remainder(x, 2 * self.q);
        if run.first <= x && x <= run.last {
            return 0;
        }
        let from_first = distance(x - run.first, 2 * self.q);
        let from_last = distance(x - run.last, 2 * self.q);
        from_first.min(from_last)
    }
}

/// Two coin bits: 0, 1 give 0; 2 gives +1; 3 gives -1.
fn c(coin: u32) -> i128 {
    match coin {
        0 | 1 => 0,
        2 => 1,
        3 => -1,
        _ => panic!("a coin has two bits"),
    }
}
