//! The cases of Noise, on bytes and a table.

use super::good::{Call, Good};
use super::lines::line;
use super::run::noise as run;
use crate::schemes::{Family, Scheme};
use crate::vectors::draw::{drawn, Entries, Stream};

/// One call of Noise: with which scheme, on what, and with how much room.
#[derive(Clone)]
pub struct Case {
    pub scheme: u64,
    pub bytes: Vec<u8>,
    pub table: Vec<u64>,
    pub room: usize,
}

/// So much longer are the bytes and the table drawn.
const LONGER: usize = 32;

/// A number that no scheme has.
const NO_SCHEME: u64 = 6;

/// The lines of a scheme's cases, counted from 0.
pub fn lines(scheme: &'static Scheme) -> Vec<String> {
    let good = Good {
        call: Call::Noise,
        scheme: Some(scheme),
        inputs: vec![],
        answers: vec![],
    };
    let cases = cases(scheme).into_iter().enumerate();
    cases
        .map(|(at, case)| line(&good, &at.to_string(), &run(&case)))
        .collect()
}

pub fn cases(scheme: &Scheme) -> Vec<Case> {
    let sets = Set::of(scheme);
    let mut cases: Vec<Case> = sets.iter().flat_map(Set::lengths_and_rooms).collect();
    cases.extend(sets[0].lengths_of_the_table());
    cases.extend(sets[0].a_faulty_table());
    if scheme.family == Family::Bcns {
        let good = Case {
            bytes: edges(&sets[0].bytes[..sets[0].n]),
            ..sets[0].good()
        };
        let table = |table| Case {
            table,
            ..good.clone()
        };
        cases.extend(tables().into_iter().map(table));
    }
    cases
}

/// One fixed length of the bytes with its fixed lengths of the table and of the
/// answer; bytes and table are longer.
struct Set {
    scheme: u64,
    n: usize,
    words: usize,
    values: usize,
    bytes: Vec<u8>,
    table: Vec<u64>,
}

impl Set {
    fn of(scheme: &Scheme) -> Vec<Set> {
        let sets = match scheme.family {
            Family::Bcns => vec![(25600, 153, 1024)],
            Family::NewHope => vec![(4096, 0, 1024)],
            Family::Frodo => vec![(16 * scheme.n, 0, 8 * scheme.n), (128, 0, 64)],
        };
        let set = |(n, words, values)| Set {
            scheme: scheme.number,
            n,
            words,
            values,
            bytes: drawn(100 * scheme.number + 3, Entries::Bytes, n + LONGER)
                .into_iter()
                .map(|byte| byte as u8)
                .collect(),
            table: [table(), vec![0; LONGER]].concat(),
        };
        sets.into_iter().map(set).collect()
    }

    /// So many bytes, so many words of the table, so much room.
    fn case(&self, n: usize, words: usize, room: usize) -> Case {
        Case {
            scheme: self.scheme,
            bytes: self.bytes[..n].to_vec(),
            table: self.table[..words].to_vec(),
            room,
        }
    }

    fn good(&self) -> Case {
        self.case(self.n, self.words, self.values)
    }

    fn lengths_and_rooms(&self) -> Vec<Case> {
        let (n, words, r) = (self.n, self.words, self.values);
        let both = self.case(n + 1, words, 0);
        let mut cases = vec![self.good()];
        cases.extend([0, n - 1, n + 1, n + 32].map(|length| self.case(length, words, r)));
        cases.extend([0, r - 1, r + 1, r + 32].map(|room| self.case(n, words, room)));
        cases.push(both.clone());
        cases.push(Case {
            scheme: NO_SCHEME,
            ..both
        });
        cases
    }

    fn lengths_of_the_table(&self) -> Vec<Case> {
        let lengths = [0, 1, 150, 152, 153, 154, 185];
        let with = |room| lengths.map(|words| self.case(self.n, words, room));
        [with(self.values), with(0)].concat()
    }

    fn a_faulty_table(&self) -> Vec<Case> {
        let faulty = |n, words, room| {
            let mut case = self.case(n, 153, room);
            equal(&mut case.table, 25);
            case.table.truncate(words);
            case
        };
        let (n, r) = (self.n, self.values);
        let last = faulty(n + 1, 153, 0);
        vec![
            faulty(n, 153, r),
            faulty(n, 153, 0),
            faulty(n, 152, r),
            faulty(n + 1, 153, r),
            last.clone(),
            Case {
                scheme: NO_SCHEME,
                ..last
            },
        ]
    }
}

/// The table as it is first made.
pub fn table() -> Vec<u64> {
    let mut stream = Stream::new(10);
    let mut draw = || stream.below(4294967295);
    let d: Vec<u64> = (0..153).map(|_| (draw() << 32) + draw()).collect();
    let entry = |k: usize| {
        [
            ((k as u64 / 4 + 1) << 60) + d[k / 4] / 16,
            ((k as u64 / 2 % 2) << 63) + d[51 + k / 2] / 2,
            ((k as u64 % 2) << 63) + d[102 + k] / 2,
        ]
    };
    (0..51).flat_map(entry).collect()
}

/// Bytes at the edges of that table's entries.
pub fn edges(bytes: &[u8]) -> Vec<u8> {
    let (table, mut bytes) = (table(), bytes.to_vec());
    for i in 0..718 {
        let value = &mut bytes[25 * i..25 * i + 25];
        let v = match i {
            714 | 715 => [0; 3],
            716 | 717 => [u64::MAX; 3],
            _ => edge(&table[i / 14 * 3..], i / 2 % 7),
        };
        for (to, word) in value.chunks_exact_mut(8).zip(v) {
            to.copy_from_slice(&word.to_be_bytes());
        }
        value[24] = (i % 256) as u8;
    }
    bytes
}

/// The entry's three words with one of the seven changes.
fn edge(entry: &[u64], change: usize) -> [u64; 3] {
    let mut v = [entry[0], entry[1], entry[2]];
    match change {
        0 => {}
        1 => v[2] = v[2].wrapping_sub(1),
        2 => v[2] = v[2].wrapping_add(1),
        3 => v[1] = v[1].wrapping_sub(1),
        4 => v[1] = v[1].wrapping_add(1),
        5 => v[0] = v[0].wrapping_sub(1),
        _ => v[0] = v[0].wrapping_add(1),
    }
    v
}

/// The tables of the cases on those bytes.
fn tables() -> Vec<Vec<u64>> {
    let made = |change: &dyn Fn(&mut Vec<u64>)| {
        let mut table = table();
        change(&mut table);
        table
    };
    let mut tables = vec![
        table(),
        made(&|t| t[..3].fill(0)),
        made(&|t| t[150..].fill(u64::MAX)),
        vec![0; 153],
        made(&|t| [25, 50].iter().for_each(|&p| equal(t, p))),
    ];
    for p in [1, 24, 25, 26, 50] {
        let last = 3 * p + 2;
        tables.extend([
            made(&|t| equal(t, p)),
            made(&|t| (0..3).for_each(|k| t.swap(3 * p - 3 + k, 3 * p + k))),
            made(&|t| {
                equal(t, p);
                t[last] = t[last].wrapping_sub(1);
            }),
            made(&|t| {
                equal(t, p);
                t[last] = t[last].wrapping_add(1);
            }),
        ]);
    }
    tables
}

/// Makes an entry equal to its forerunner.
fn equal(table: &mut [u64], p: usize) {
    table.copy_within(3 * p - 3..3 * p, 3 * p);
}
