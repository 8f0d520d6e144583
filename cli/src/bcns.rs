//! BCNS's table of noise: its text, and the one that ships.

use crate::data::{Data, Wiped};

/// The table by document 000's formula.
const SHIPPED: &str = include_str!("../../data/bcns-table.txt");

/// Bytes of the longest text that is read as a table.
pub const LONGEST: usize = 65536;

/// Words of an entry, and digits of a word.
const WORDS: usize = 3;
const DIGITS: usize = 16;

/// The table that is lent where nobody names one, of so many words.
pub fn table(words: usize) -> Data {
    let mut table = read(SHIPPED.as_bytes()).unwrap_or_else(|_| Wiped::zeros(0));
    table.truncate(words);
    Data::Words(table)
}

/// The words of a text, an entry a line; or the first line, counted from 1, that
/// is none. A line that begins with # is a comment.
pub fn read(text: &[u8]) -> Result<Wiped<u64>, usize> {
    let mut words = vec![];
    for (at, line) in text.split(|&byte| byte == b'\n').enumerate() {
        if line.starts_with(b"#") || line.trim_ascii().is_empty() {
            continue;
        }
        words.extend(entry(line).ok_or(at + 1)?);
    }
    Ok(Wiped::collect(words.into_iter()))
}

/// Three words of 16 hexadecimal digits.
fn entry(line: &[u8]) -> Option<[u64; WORDS]> {
    let words = std::str::from_utf8(line).ok()?.split_ascii_whitespace();
    let words: Vec<u64> = words.map(word).collect::<Option<_>>()?;
    words.try_into().ok()
}

fn word(text: &str) -> Option<u64> {
    let plain = text.len() == DIGITS && text.bytes().all(|byte| byte.is_ascii_hexdigit());
    u64::from_str_radix(text, 16).ok().filter(|_| plain)
}

/// An entry as one number in hexadecimal digits.
pub fn number(table: &[u64], entry: usize) -> Option<String> {
    let words = table.get(WORDS * entry..WORDS * (entry + 1))?;
    Some(words.iter().map(|word| format!("{word:016x}")).collect())
}

#[cfg(test)]
mod tests {
    use super::*;

    #[test]
    fn the_table_that_ships() {
        let table = table(153);
        assert_eq!(table.len(), 153);
        assert_eq!(table.words()[..3], [1 << 61, 0, 0]);
        let entries: Vec<&[u64]> = table.words().chunks(3).collect();
        assert!(entries.windows(2).all(|pair| pair[0] < pair[1]));
    }

    #[test]
    fn texts() {
        let word = "00000000000000aF";
        let line = format!("{word} {word} {word}");
        let of = |text: &str| read(text.as_bytes()).map(|words| words.to_vec());
        assert_eq!(of(""), Ok(vec![]));
        assert_eq!(of("# none\n\n"), Ok(vec![]));
        assert_eq!(of(&line), Ok(vec![175; 3]));
        assert_eq!(of(&format!("#\n{line}\r\n\n{line}\n")), Ok(vec![175; 6]));
        for other in [
            word.to_string(),
            format!("{line} {word}"),
            line.replace("aF", "a"),
            line.replace("aF", "0aF"),
            line.replace("00a", "+0a"),
            line.replace("aF", "ag"),
            line.replace(' ', ","),
        ] {
            assert_eq!(of(&format!("# 1\n{line}\n{other}\n")), Err(3), "{other}");
        }
        assert_eq!(read(&[255, 10]).err(), Some(1));
    }
}
