//! What is in a file, as numbers, values, bytes or words, in memory that is zeroed
//! when it is given back.

use crate::guard;
use crate::rows::Rows;
use std::ops::{Deref, DerefMut};
use std::sync::atomic::{compiler_fence, Ordering};

/// A buffer that is zeroed when it is dropped. It never grows, so that no copy
/// of it is left behind by a move to a larger place.
pub struct Wiped<T: Copy + Default>(Vec<T>);

impl<T: Copy + Default> Wiped<T> {
    pub fn zeros(n: usize) -> Self {
        let all = vec![T::default(); n];
        guard::lock(&all);
        Wiped(all)
    }

    pub fn collect(entries: impl ExactSizeIterator<Item = T>) -> Self {
        let mut all = Wiped::zeros(entries.len());
        for (to, entry) in all.iter_mut().zip(entries) {
            *to = entry;
        }
        all
    }

    /// Cuts it to its first n entries; the others are zeroed first.
    pub fn truncate(&mut self, n: usize) {
        if n < self.0.len() {
            wipe(&mut self.0[n..]);
            self.0.truncate(n);
        }
    }
}

/// Volatile, so that no compiler drops writes that nobody reads.
fn wipe<T: Copy + Default>(entries: &mut [T]) {
    for entry in entries {
        // SAFETY: a reference is valid for a write of its type.
        unsafe { std::ptr::write_volatile(entry, T::default()) };
    }
    compiler_fence(Ordering::SeqCst);
}

impl<T: Copy + Default> Drop for Wiped<T> {
    fn drop(&mut self) {
        wipe(&mut self.0);
    }
}

impl<T: Copy + Default> Deref for Wiped<T> {
    type Target = [T];
    fn deref(&self) -> &[T] {
        &self.0
    }
}

impl<T: Copy + Default> DerefMut for Wiped<T> {
    fn deref_mut(&mut self) -> &mut [T] {
        &mut self.0
    }
}

/// What a file holds.
#[derive(Clone, Copy, PartialEq, Eq)]
pub enum Kind {
    /// Public numbers: 32 bits, the lowest byte first.
    Numbers,
    /// Secrets and noise: 32 bits in two's complement, the lowest byte first.
    Values,
    Bytes,
    /// 64-bit words of a table: text, an entry a line.
    Words,
    /// Public numbers that are read row by row.
    Rows,
}

impl Kind {
    /// How many bytes an entry takes.
    pub fn entry(self) -> usize {
        match self {
            Kind::Numbers | Kind::Values | Kind::Rows => 4,
            Kind::Bytes => 1,
            Kind::Words => 8,
        }
    }
}

pub enum Data {
    Numbers(Wiped<u32>),
    Values(Wiped<i32>),
    Bytes(Wiped<u8>),
    Words(Wiped<u64>),
    /// Not read yet.
    Rows(Rows),
}

fn word(four: &[u8]) -> [u8; 4] {
    four.try_into().expect("four bytes")
}

impl Data {
    pub fn zeros(kind: Kind, n: usize) -> Data {
        match kind {
            Kind::Numbers => Data::Numbers(Wiped::zeros(n)),
            Kind::Values => Data::Values(Wiped::zeros(n)),
            Kind::Bytes => Data::Bytes(Wiped::zeros(n)),
            Kind::Words => Data::Words(Wiped::zeros(n)),
            Kind::Rows => Data::Rows(Rows::nothing()),
        }
    }

    /// From a file's bytes, of which there are whole entries.
    pub fn from_file(kind: Kind, bytes: Wiped<u8>) -> Data {
        let words = bytes.chunks_exact(4).map(word);
        match kind {
            Kind::Numbers => Data::Numbers(Wiped::collect(words.map(u32::from_le_bytes))),
            Kind::Values => Data::Values(Wiped::collect(words.map(i32::from_le_bytes))),
            Kind::Bytes => Data::Bytes(bytes),
            Kind::Words => unreachable!("a table is text"),
            Kind::Rows => unreachable!("rows are not read whole"),
        }
    }

    pub fn to_file(&self) -> Wiped<u8> {
        let mut bytes = Wiped::zeros(self.len() * self.kind().entry());
        match self {
            Data::Numbers(x) => lay(&mut bytes, x.iter().map(|n| n.to_le_bytes())),
            Data::Values(x) => lay(&mut bytes, x.iter().map(|n| n.to_le_bytes())),
            Data::Bytes(x) => bytes.copy_from_slice(x),
            Data::Words(_) => unreachable!("no table is an output"),
            Data::Rows(_) => unreachable!("no rows are an output"),
        }
        bytes
    }

    pub fn kind(&self) -> Kind {
        match self {
            Data::Numbers(_) => Kind::Numbers,
            Data::Values(_) => Kind::Values,
            Data::Bytes(_) => Kind::Bytes,
            Data::Words(_) => Kind::Words,
            Data::Rows(_) => Kind::Rows,
        }
    }

    /// How many entries.
    pub fn len(&self) -> usize {
        match self {
            Data::Numbers(x) => x.len(),
            Data::Values(x) => x.len(),
            Data::Bytes(x) => x.len(),
            Data::Words(x) => x.len(),
            Data::Rows(_) => 0,
        }
    }

    pub fn truncate(&mut self, n: usize) {
        match self {
            Data::Numbers(x) => x.truncate(n),
            Data::Values(x) => x.truncate(n),
            Data::Bytes(x) => x.truncate(n),
            Data::Words(x) => x.truncate(n),
            Data::Rows(_) => {}
        }
    }

    // The table says which kind an input or output has; a call that asks for
    // another is a mistake in the program.

    pub fn numbers(&self) -> &[u32] {
        match self {
            Data::Numbers(x) => x,
            _ => unreachable!("the table has numbers here"),
        }
    }

    pub fn values(&self) -> &[i32] {
        match self {
            Data::Values(x) => x,
            _ => unreachable!("the table has values here"),
        }
    }

    pub fn bytes(&self) -> &[u8] {
        match self {
            Data::Bytes(x) => x,
            _ => unreachable!("the table has bytes here"),
        }
    }

    pub fn words(&self) -> &[u64] {
        match self {
            Data::Words(x) => x,
            _ => unreachable!("the table has words here"),
        }
    }

    pub fn rows(&self) -> &Rows {
        match self {
            Data::Rows(x) => x,
            _ => unreachable!("the table has rows here"),
        }
    }

    pub fn numbers_mut(&mut self) -> &mut [u32] {
        match self {
            Data::Numbers(x) => x,
            _ => unreachable!("the table has numbers here"),
        }
    }

    pub fn values_mut(&mut self) -> &mut [i32] {
        match self {
            Data::Values(x) => x,
            _ => unreachable!("the table has values here"),
        }
    }

    pub fn bytes_mut(&mut self) -> &mut [u8] {
        match self {
            Data::Bytes(x) => x,
            _ => unreachable!("the table has bytes here"),
        }
    }
}

fn lay(bytes: &mut [u8], words: impl Iterator<Item = [u8; 4]>) {
    for (to, word) in bytes.chunks_exact_mut(4).zip(words) {
        to.copy_from_slice(&word);
    }
}

#[cfg(test)]
mod tests {
    use super::*;

    #[test]
    fn numbers_lie_lowest_byte_first() {
        let mut file = Wiped::zeros(8);
        file.copy_from_slice(&[1, 2, 0, 0, 0xff, 0xff, 0xff, 0xff]);
        let values = Data::from_file(Kind::Values, file);
        assert_eq!(values.values(), [513, -1]);
        assert_eq!(values.to_file()[..], [1, 2, 0, 0, 0xff, 0xff, 0xff, 0xff]);
    }

    #[test]
    fn what_is_cut_off_is_zeroed() {
        let mut secret: Wiped<u8> = Wiped::zeros(4);
        secret.copy_from_slice(&[1, 2, 3, 4]);
        secret.truncate(1);
        // SAFETY: the vector still has room for four, all of them written.
        let all = unsafe { std::slice::from_raw_parts(secret.0.as_ptr(), 4) };
        assert_eq!(all, [1, 0, 0, 0]);
    }
}
