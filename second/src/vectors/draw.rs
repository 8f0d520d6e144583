//! docs/VECTORS.md, "What is drawn".

/// A stream of draws; its state begins as its seed.
pub struct Stream {
    x: u64,
}

impl Stream {
    pub fn new(seed: u64) -> Stream {
        Stream { x: seed }
    }

    /// A draw below m. Were m a multiple of 19, so would be every draw.
    pub fn below(&mut self, m: u64) -> u64 {
        self.x = 48271 * self.x % 2147483647;
        19 * self.x % m
    }
}

/// What the entries of a list are.
#[derive(Clone, Copy)]
pub enum Entries {
    PublicNumbers { q: i64 },
    Bytes,
    ValuesOfAtMost(i64),
}

/// The first entries of the list with this seed.
pub fn drawn(seed: u64, entries: Entries, count: usize) -> Vec<i64> {
    let (below, less) = match entries {
        Entries::PublicNumbers { q } => (q, 0),
        Entries::Bytes => (256, 0),
        Entries::ValuesOfAtMost(b) => (2 * b + 1, b),
    };
    let mut stream = Stream::new(seed);
    let entry = |_| stream.below(below as u64) as i64 - less;
    (0..count).map(entry).collect()
}
