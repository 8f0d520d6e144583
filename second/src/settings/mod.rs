//! 02, request h: the settings and their text, in format 1 and format 2.

pub mod frames;
pub mod texts;

use crate::expand::Rule;
use crate::schemes::scheme;
use crate::trace::number;

/// The most bytes of a label.
pub const LABEL: usize = 16;

/// A scheme 0 to 5, a rule 14 or 16, and a label, empty where there is none.
#[derive(Clone, Debug, PartialEq, Eq)]
pub struct Settings {
    pub scheme: u64,
    pub rule: u64,
    pub label: Vec<u8>,
}

impl Settings {
    /// Without a label format 1, else format 2.
    pub fn format(&self) -> u64 {
        if self.label.is_empty() {
            1
        } else {
            2
        }
    }
}

/// Why a text gives no settings.
#[derive(Clone, Copy, Debug, PartialEq, Eq)]
pub enum Unread {
    /// 15: a format above the reader's own, and which.
    Newer(u64),
    /// 8: any other misfit.
    Misfit,
}

/// What the reader of this format makes of a text; the readers are those of
/// format 1 and format 2, and this is the rule for any.
pub fn read(reader: u64, text: &[u8]) -> Result<Settings, Unread> {
    let lines: Vec<&[u8]> = text.split_inclusive(|&byte| byte == b'\n').collect();
    let format = lines.first().and_then(|line| number(line, "format="));
    let read = match format {
        Some(newer) if newer > reader => return Err(Unread::Newer(newer)),
        Some(1) => format_1(&lines[1..]),
        Some(2) => format_2(&lines[1..]),
        _ => None,
    };
    read.ok_or(Unread::Misfit)
}

/// The lines behind `format=1`.
fn format_1(lines: &[&[u8]]) -> Option<Settings> {
    let [scheme, rule] = lines else { return None };
    of(scheme, rule, vec![])
}

/// The lines behind `format=2`.
fn format_2(lines: &[&[u8]]) -> Option<Settings> {
    let [scheme, rule, label] = lines else {
        return None;
    };
    let label = label.strip_prefix(b"label=")?.strip_suffix(b"\n")?;
    let fits = (1..=LABEL).contains(&label.len()) && label.iter().all(allowed);
    if fits {
        of(scheme, rule, label.to_vec())
    } else {
        None
    }
}

/// The two lines that both formats have.
fn of(scheme_line: &[u8], rule_line: &[u8], label: Vec<u8>) -> Option<Settings> {
    Some(Settings {
        scheme: number(scheme_line, "scheme=").filter(|&no| scheme(no).is_some())?,
        rule: number(rule_line, "rule=").filter(|&no| is_rule(no))?,
        label,
    })
}

fn is_rule(number: u64) -> bool {
    u32::try_from(number).is_ok_and(|number| Rule::of(number).is_some())
}

/// A capital letter or a digit.
pub fn allowed(byte: &u8) -> bool {
    byte.is_ascii_uppercase() || byte.is_ascii_digit()
}

/// The text of settings.
pub fn write(settings: &Settings) -> Vec<u8> {
    let Settings {
        scheme,
        rule,
        label,
    } = settings;
    let format = settings.format();
    let mut text = format!("format={format}\nscheme={scheme}\nrule={rule}\n").into_bytes();
    if format == 2 {
        text.extend([b"label=", &label[..], b"\n"].concat());
    }
    text
}
