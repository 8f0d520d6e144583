//! `second settings`: many texts in one run. Standard input holds frames, each a
//! line and as many bytes as the line's last number says:
//!
//! ```text
//! read READER ROOM LENGTH    the text, read into a label of ROOM bytes
//! write SCHEME RULE LENGTH   the label
//! ```
//!
//! For each frame one line is printed, of all that the call gives:
//!
//! ```text
//! refusal=0 format=2 scheme=4 rule=16 label=STUDIO7
//! refusal=0 written=26 text=666f..0a
//! ```
//!
//! The text is in base 16. After a refusal all is 0 or empty; only after 15 the
//! format is the newer one. Where a frame does not fit this the last line is `no
//! frame`.

use crate::calls::{settings_read, settings_write};
use crate::line::decimal;
use crate::refusal::Refusal;

/// The whole output for the whole input.
pub fn answers(input: &[u8]) -> Vec<u8> {
    let mut rest = input;
    let mut lines = String::new();
    while !rest.is_empty() {
        let Some((line, left)) = frame(rest) else {
            lines.push_str("no frame\n");
            break;
        };
        lines.push_str(&line);
        lines.push('\n');
        rest = left;
    }
    lines.into_bytes()
}

/// The answer to the first frame, and what is left behind it.
fn frame(input: &[u8]) -> Option<(String, &[u8])> {
    let end = input.iter().position(|&byte| byte == b'\n')?;
    let words: Vec<&[u8]> = input[..end].split(|&byte| byte == b' ').collect();
    let length = usize::try_from(decimal(words.last()?)?).ok()?;
    let (bytes, left) = input[end + 1..].split_at_checked(length)?;
    let line = match words[..] {
        [b"read", reader, room, _] => {
            let room = usize::try_from(decimal(room)?).ok()?;
            read(decimal(reader)?, room, bytes)
        }
        [b"write", scheme, rule, _] => {
            let rule = u32::try_from(decimal(rule)?).ok()?;
            written(decimal(scheme)?, rule, bytes)
        }
        _ => return None,
    };
    Some((line, left))
}

fn read(reader: u64, room: usize, text: &[u8]) -> String {
    let mut label = vec![0; room];
    let read = settings_read(reader, text, &mut label);
    let label = &label[..read.told.unwrap_or(0)];
    format!(
        "refusal={} format={} scheme={} rule={} label={}",
        number(read.told),
        read.format,
        read.scheme,
        read.rule,
        label
            .iter()
            .map(|&byte| char::from(byte))
            .collect::<String>()
    )
}

fn written(scheme: u64, rule: u32, label: &[u8]) -> String {
    let mut text = [0; 64];
    let told = settings_write(scheme, rule, label, &mut text);
    let count = told.unwrap_or(0);
    let text: String = text[..count]
        .iter()
        .map(|byte| format!("{byte:02x}"))
        .collect();
    format!("refusal={} written={count} text={text}", number(told))
}

/// The refusal's number, or 0.
fn number(told: Result<usize, Refusal>) -> u32 {
    told.map_or_else(|refused| refused.number, |_| 0)
}
