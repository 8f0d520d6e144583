//! Frodo's A as a stream of rows, of which one is held at a time.

use crate::files::fill;
use crate::tell::{self, reason, Fault};
use std::cell::RefCell;
use std::ffi::{OsStr, OsString};
use std::fs::File;
use std::io::{self, IsTerminal, Write};

pub const MORE: &str = "\
A is read row by row, n rows of n numbers, and no more of it is held than one row; - is standard
input, as from a program that makes the rows of a seed. On a terminal a line tells how far it is. A
that ends early or goes on behind its last row is refused by 11, with the row and the column where;
a number that is q or more by 4, at the column that place= tells.";

/// An open file or stream, and what was seen of it so far.
pub struct Rows {
    from: RefCell<Option<File>>,
    name: OsString,
    /// How many numbers a plain file has.
    length: Option<u64>,
    seen: RefCell<Seen>,
}

#[derive(Default)]
struct Seen {
    /// Numbers in a row, and those that have come.
    n: usize,
    come: u64,
    /// The last row that was handed on.
    row: Vec<u32>,
    /// Whether there was something behind the last row.
    more: bool,
    fault: Option<Fault>,
}

impl Rows {
    /// A file or a stream, by its name in a fault; of a plain file its bytes.
    pub fn new(from: File, name: &OsStr, bytes: Option<u64>) -> Result<Rows, Fault> {
        match bytes {
            Some(all) if all % 4 != 0 => Err(no_numbers(name, all)),
            _ => Ok(Rows {
                from: RefCell::new(Some(from)),
                name: name.to_os_string(),
                length: bytes.map(|all| all / 4),
                seen: RefCell::default(),
            }),
        }
    }

    /// No rows at all.
    pub fn nothing() -> Rows {
        Rows {
            from: RefCell::new(None),
            name: OsString::new(),
            length: Some(0),
            seen: RefCell::default(),
        }
    }

    /// Hands on row after row, the last as far as it goes, and one number more where
    /// there is more than n rows; until one is refused. What cannot be read ends the
    /// rows, and is told by [`Rows::fault`].
    pub fn each<E>(
        &self,
        n: usize,
        mut part: impl FnMut(&[u32]) -> Result<(), E>,
    ) -> Result<(), E> {
        let mut seen = self.seen.borrow_mut();
        seen.n = n;
        let mut progress = Progress::new(n);
        let mut bytes = vec![0; 4 * n];
        for i in 0..=n {
            progress.at(i);
            let room = if i < n { 4 * n } else { 4 };
            let there = self.read(&mut bytes[..room], &mut seen);
            let words = bytes[..there].chunks_exact(4);
            let word = |four: &[u8]| u32::from_le_bytes([four[0], four[1], four[2], four[3]]);
            seen.row = words.map(word).collect();
            seen.more = i == n && there > 0;
            if there > 0 {
                part(&seen.row)?;
            }
            seen.come += seen.row.len() as u64;
            if there < room {
                break;
            }
        }
        Ok(())
    }

    /// How many bytes there were for a row; a faulty end counts as none.
    fn read(&self, room: &mut [u8], seen: &mut Seen) -> usize {
        let mut from = self.from.borrow_mut();
        let Some(file) = from.as_mut() else {
            return 0;
        };
        match fill(file, room) {
            Ok(n) if n % 4 == 0 => n,
            Ok(n) => {
                let all = 4 * seen.come + n as u64;
                seen.fault = Some(no_numbers(&self.name, all));
                0
            }
            Err(error) => {
                seen.fault = Some(tell::file(&self.name, reason(&error)));
                0
            }
        }
    }

    /// What could not be read.
    pub fn fault(&self) -> Option<Fault> {
        self.seen.borrow_mut().fault.take()
    }

    /// After refusal 11: the row and the column where the numbers ended or should
    /// have, and how many there are.
    pub fn ended(&self) -> String {
        let seen = self.seen.borrow();
        let n = seen.n.max(1) as u64;
        let more = if self.length.is_none() && seen.more {
            ".."
        } else {
            ""
        };
        let length = self.length.unwrap_or(seen.come + u64::from(seen.more));
        let (row, column) = (seen.come / n, seen.come % n);
        let expected = seen.n * seen.n;
        format!("row={row} column={column} length={length}{more} expected={expected}")
    }

    /// After refusal 4 at a place in the last row: the row, the column and what stands
    /// there.
    pub fn over(&self, place: usize) -> Option<String> {
        let seen = self.seen.borrow();
        let value = seen.row.get(place)?;
        let row = seen.come / seen.n.max(1) as u64;
        Some(format!("row={row} column={place} value={value}"))
    }
}

fn no_numbers(name: &OsStr, bytes: u64) -> Fault {
    let line = format!("{bytes} bytes are no whole number of 32-bit numbers");
    tell::file(name, line)
}

/// A line that tells how many rows have come, on a terminal alone. It is cleared in
/// the end.
struct Progress {
    rows: usize,
    shown: bool,
}

impl Progress {
    /// How many rows pass before it is written anew.
    const STEP: usize = 16;

    fn new(rows: usize) -> Progress {
        let shown = io::stderr().is_terminal();
        Progress { rows, shown }
    }

    fn at(&mut self, row: usize) {
        if self.shown && row.is_multiple_of(Progress::STEP) {
            let _ = write!(io::stderr(), "\rrow {row} of {}", self.rows);
        }
    }
}

impl Drop for Progress {
    fn drop(&mut self) {
        if self.shown {
            let _ = write!(io::stderr(), "\r\x1b[K");
        }
    }
}

#[cfg(test)]
mod tests {
    use super::*;
    use std::sync::atomic::{AtomicUsize, Ordering};

    static NEXT: AtomicUsize = AtomicUsize::new(0);

    /// Rows of two numbers from a file of these bytes.
    fn of(bytes: &[u8]) -> (Vec<Vec<u32>>, Rows) {
        let one = NEXT.fetch_add(1, Ordering::Relaxed);
        let name = format!("wimmostry-rows-{}-{one}", std::process::id());
        let path = std::env::temp_dir().join(name);
        std::fs::write(&path, bytes).unwrap();
        let file = File::open(&path).unwrap();
        std::fs::remove_file(&path).unwrap();
        let Ok(rows) = Rows::new(file, OsStr::new("a"), None) else {
            panic!("a stream")
        };
        let mut parts = vec![];
        let done: Result<(), ()> = rows.each(2, |part| {
            parts.push(part.to_vec());
            Ok(())
        });
        assert!(done.is_ok());
        (parts, rows)
    }

    #[test]
    fn as_far_as_they_go() {
        let words: Vec<u8> = (1..7u32).flat_map(u32::to_le_bytes).collect();
        assert_eq!(of(&words[..0]).0, Vec::<Vec<u32>>::new());
        assert_eq!(of(&words[..12]).0, [vec![1, 2], vec![3]]);
        assert_eq!(of(&words[..16]).0, [[1, 2], [3, 4]]);
        assert!(of(&words[..16]).1.fault().is_none());
        assert_eq!(of(&words[..24]).0, [vec![1, 2], vec![3, 4], vec![5]]);
        let (parts, rows) = of(&words[..14]);
        assert_eq!(parts, [[1, 2]]);
        let fault = rows.fault().expect("half a number");
        assert_eq!(
            fault.lines,
            ["a: 14 bytes are no whole number of 32-bit numbers"]
        );
    }

    #[test]
    fn where_they_ended() {
        let words: Vec<u8> = (1..7u32).flat_map(u32::to_le_bytes).collect();
        let ended = |bytes: usize| of(&words[..bytes]).1.ended();
        assert_eq!(ended(0), "row=0 column=0 length=0 expected=4");
        assert_eq!(ended(12), "row=1 column=1 length=3 expected=4");
    }
}
