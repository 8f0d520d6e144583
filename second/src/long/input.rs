//! What a call is lent: the front of a list or of a message, some of its
//! numbers made others.

use crate::schemes::Scheme;
use crate::vectors::draw::{drawn, Entries};

/// Each list goes on, and each message has zeros behind it, so much longer.
const LONGER: usize = 32;

#[derive(Clone, Copy)]
pub enum Kind {
    PublicNumbers,
    SecretsOrNoise,
    Bytes,
    /// Bytes that count as the numbers packed from byte `start` on.
    Message {
        start: usize,
        width: usize,
        count: usize,
    },
}

#[derive(Clone)]
pub struct Input {
    pub kind: Kind,
    /// The fixed length.
    pub n: usize,
    /// Those entries and more.
    pub entries: Vec<i64>,
}

impl Input {
    /// The list that begins at an entry of a stream.
    pub fn list(n: usize, seed: u64, at: usize, entries: Entries) -> Input {
        let kind = match entries {
            Entries::PublicNumbers { .. } => Kind::PublicNumbers,
            Entries::ValuesOfAtMost(_) => Kind::SecretsOrNoise,
            Entries::Bytes => Kind::Bytes,
        };
        let entries = drawn(seed, entries, at + n + LONGER).split_off(at);
        Input { kind, n, entries }
    }

    /// A message whose packed numbers start at the given byte.
    pub fn message(scheme: &Scheme, start: usize, mut entries: Vec<i64>) -> Input {
        let n = entries.len();
        entries.extend([0; LONGER]);
        let kind = Kind::Message {
            start,
            width: scheme.width,
            count: scheme.packed_count(),
        };
        Input { kind, n, entries }
    }

    /// How many numbers or values it has; none if it is mere bytes.
    pub fn count(&self) -> Option<usize> {
        match self.kind {
            Kind::PublicNumbers | Kind::SecretsOrNoise => Some(self.n),
            Kind::Bytes => None,
            Kind::Message { count, .. } => Some(count),
        }
    }

    /// Makes all its numbers or values zero; in a message the packed part alone.
    pub fn zero(&mut self) {
        match self.kind {
            Kind::PublicNumbers | Kind::SecretsOrNoise => self.entries.fill(0),
            Kind::Bytes => panic!("mere bytes have no numbers"),
            Kind::Message {
                start,
                width,
                count,
            } => self.entries[start..start + width * count / 8].fill(0),
        }
    }

    /// Makes every byte of a reply's hints, which stand behind its packed part,
    /// another.
    pub fn other_hints(&mut self, other: fn(i64) -> i64) {
        let Kind::Message {
            start,
            width,
            count,
        } = self.kind
        else {
            panic!("a message has hints");
        };
        for byte in &mut self.entries[start + width * count / 8..self.n] {
            *byte = other(*byte);
        }
    }

    /// Makes one of its numbers or values another.
    pub fn change(&mut self, index: usize, value: i64) {
        match self.kind {
            Kind::PublicNumbers | Kind::SecretsOrNoise => self.entries[index] = value,
            Kind::Bytes => panic!("mere bytes have no numbers"),
            Kind::Message { start, width, .. } => {
                for bit in 0..width {
                    let place = 8 * start + width * index + bit;
                    let byte = &mut self.entries[place / 8];
                    *byte &= !(1 << (place % 8));
                    *byte |= (value >> bit & 1) << (place % 8);
                }
            }
        }
    }
}
