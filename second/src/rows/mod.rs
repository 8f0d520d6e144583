//! 02, request e: Offer and Reply of Frodo with A row by row: begin, then the
//! numbers of A in parts, then end.

mod calls;
mod lent;
mod made;
mod runs;

pub use calls::{offer_begin, offer_end, offer_part, reply_begin, reply_end, reply_part};
pub use lent::{lay, parse, state_count};
pub use made::{Call, Seen};
pub use runs::{any_state, begin, damaged, run, Cut, Which};

use crate::schemes::Scheme;

/// What a begin takes up, and how much of A has come.
#[derive(Clone, Debug, PartialEq, Eq)]
pub struct State {
    pub scheme: &'static Scheme,
    pub carried: Carried,
    /// Numbers of A so far, row after row.
    pub come: usize,
    /// S, n by 8, or S', 8 by n, row after row; values modulo 2^16, which is a
    /// multiple of every Frodo q.
    pub secret: Vec<u16>,
    /// E, n by 8, or E', 8 by n, to which the products of each sixteen rows are added
    /// once they have come, so that it becomes B or B'; modulo 2^16.
    pub sums: Vec<u16>,
    /// Sixteen rows: what has come of them is held back in front; behind it lies what was
    /// held back before. Numbers of A are below q, but a lent state may hold any words.
    pub held: Vec<u16>,
}

/// What the two calls keep for their end: Offer its seed; Reply V, which needs the
/// opening alone.
#[derive(Clone, Debug, PartialEq, Eq)]
pub enum Carried {
    Seed(Vec<u8>),
    V(Vec<u32>),
}

impl State {
    /// How many more numbers the current row has; behind the last row none.
    pub fn left_in_row(&self) -> usize {
        let n = self.scheme.n;
        if self.all_rows() {
            0
        } else {
            n - self.come % n
        }
    }

    /// Whether all n rows have come.
    pub fn all_rows(&self) -> bool {
        self.come == self.scheme.n * self.scheme.n
    }

    /// The next number of A. With the last one of sixteen rows these enter the sums,
    /// and none is held back.
    pub fn take(&mut self, number: u16) {
        let sixteen_rows = 16 * self.scheme.n;
        self.held[self.come % sixteen_rows] = number;
        self.come += 1;
        if self.come % sixteen_rows == 0 {
            for at in 0..sixteen_rows {
                self.enter(self.come - sixteen_rows + at, self.held[at]);
            }
        }
    }

    /// The number of A at this place, in row i and column j, into the sums.
    fn enter(&mut self, at: usize, number: u16) {
        let n = self.scheme.n;
        let (i, j) = (at / n, at % n);
        for k in 0..8 {
            // (AS)[i][k] has A[i][j] S[j][k]; (S'A)[k][j] has S'[k][i] A[i][j].
            let (factor, sum) = match self.carried {
                Carried::Seed(_) => (8 * j + k, 8 * i + k),
                Carried::V(_) => (n * k + i, n * k + j),
            };
            let product = number.wrapping_mul(self.secret[factor]);
            self.sums[sum] = self.sums[sum].wrapping_add(product);
        }
    }

    /// The sums modulo q: B or B'.
    pub fn reduced(&self) -> Vec<i128> {
        let reduced = |&sum| i128::from(sum) % self.scheme.q;
        self.sums.iter().map(reduced).collect()
    }
}
