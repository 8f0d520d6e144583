//! The settings of a box in a file: read, and written whole or not at all.

use crate::calls::{self, Refused, Settings, Unread, LABEL, SCHEMES, SETTINGS_TEXT};
use crate::data::{Kind, Wiped};
use crate::explain;
use crate::files::{self, Named};
use crate::fresh::Mode;
use crate::outputs::{self, Answer};
use crate::run;
use crate::table::{Input, Length};
use crate::tell::{self, Done, Fault, Voice};
use crate::words::{self, Place};
use std::ffi::OsString;
use std::os::unix::ffi::OsStrExt;

pub const READ_WORDS: &str = "  FILE     in: the settings, as write makes them\n";

pub const READ_MORE: &str = "\
Says the format, the scheme, the rule and, in format 2, the label, a line each. Format 1 is the
lines format=1, scheme=N and rule=N; format 2 says format=2 and has a last line label= with 1 to 16
capital letters or digits. Every line ends with LF, a number has no zero in front, and nothing
stands behind the last line. A format above 2 is refused by 15, and any other text by 8: line= is
then the first line that does not fit, counted from 1.";

pub const WRITE_WORDS: &str = "\
\x20 SCHEME   0 to 5
  RULE     14 low bits or 16 whole word
  LABEL    1 to 16 capital letters or digits; without it there is no label
  OUT      out: the settings
";

pub const WRITE_MORE: &str = "\
Without a label they are written in format 1, which every box reads, else in format 2. Settings that
stand in OUT are replaced whole or not at all: the text is on the disk before it takes the old one's
name, so that a power cut leaves the old settings or the new. After a refusal the old settings stay.
What stands there and is no settings is replaced with --replace alone.";

const TEXT: Input = Input {
    word: "FILE",
    kind: Kind::Bytes,
    length: Length::AtMost(SETTINGS_TEXT),
    packed: None,
    secret: false,
    what: "the settings",
};

/// Settings from a file. Of a longer file one byte more than the longest text is
/// read, which is refused like all of it.
pub fn from(place: &Place) -> Result<Settings, Fault> {
    let lent = files::read(&TEXT, place)?;
    let text = lent.data.bytes();
    calls::settings_read(text).map_err(|unread| match unread {
        Unread::Newer(format) => {
            let detail = format!("format={format} newest={}", calls::NEWEST);
            tell::refused(15, 0, Some(detail))
        }
        Unread::Refused(Refused { number, place }) => {
            tell::refused(number, place, Some(format!("line={}", misfit(text))))
        }
    })
}

pub fn read(given: &[OsString]) -> Done {
    let settings = from(&words::place(TEXT.word, &given[0])?)?;
    tell::say(Voice::Output, &lines(&settings))?;
    Ok(tell::DONE)
}

fn lines(settings: &Settings) -> String {
    let Settings {
        format,
        scheme,
        rule,
        label,
    } = settings;
    let lines = format!("format={format}\nscheme={scheme}\nrule={rule}\n");
    match &label[..] {
        "" => lines,
        label => format!("{lines}label={label}\n"),
    }
}

/// The first line that does not fit, counted from 1: with good lines behind it the
/// front of the text is still refused.
fn misfit(text: &[u8]) -> usize {
    let given: Vec<&[u8]> = text.split_inclusive(|&byte| byte == b'\n').collect();
    let good: [&[&[u8]]; 2] = [
        &[b"format=1\n", b"scheme=0\n", b"rule=14\n"],
        &[b"format=2\n", b"scheme=0\n", b"rule=14\n", b"label=A\n"],
    ];
    let fits = |n: &usize| {
        let whole = |rest: &[&[u8]]| {
            let rest = rest.get(*n..).unwrap_or_default();
            [given[..*n].concat(), rest.concat()].concat()
        };
        good.iter()
            .any(|rest| calls::settings_read(&whole(rest)).is_ok())
    };
    let first = (1..=given.len()).find(|n| !fits(n));
    first.unwrap_or(given.len() + 1)
}

pub fn write(given: &[OsString]) -> Done {
    let (scheme, rule) = (words::scheme(&given[0])?, words::rule(&given[1])?);
    let (label, out) = match &given[2..] {
        [label, _] if label.is_empty() => {
            let line = "LABEL is an empty word: leave it out where there is no label";
            return Err(tell::words(line.to_string()));
        }
        [label, out] => (label.as_bytes(), out),
        _ => (&b""[..], &given[2]),
    };
    let places = [words::output("OUT", out)?];
    let named = Named {
        word: "OUT",
        place: &places[0],
        secret: false,
    };
    let kept: Vec<Named> = [scheme.named(), rule.named()]
        .into_iter()
        .flatten()
        .collect();
    files::no_clash(&kept, &[named])?;
    replaceable(&places[0])?;
    let (scheme, rule) = (scheme.scheme()?, rule.rule()?);
    let text = calls::settings_write(scheme, rule, label)
        .map_err(|refused| unwritten(refused, scheme, rule, label))?;
    let answer = Answer {
        place: &places[0],
        bytes: Wiped::collect(text.iter().copied()),
        mode: Mode::Open,
        kept: true,
    };
    outputs::put(&[answer])?;
    tell::say(run::voice(&places), &format!("written={}\n", text.len()))?;
    Ok(tell::DONE)
}

/// Settings are replaced by settings; anything else with `--replace` alone.
fn replaceable(place: &Place) -> Result<(), Fault> {
    files::replaceable(place)?;
    match place.path() {
        Some(path) if path.exists() && from(place).is_err() => files::new(place),
        _ => Ok(()),
    }
}

fn unwritten(refused: Refused, scheme: u32, rule: u32, label: &[u8]) -> Fault {
    let detail = match refused.number {
        1 => explain::no_scheme(scheme, 0, SCHEMES - 1),
        12 => explain::no_rule(rule),
        2 => format!("input=label length={} at-most={LABEL}", label.len()),
        _ => "input=label allowed=A..Z,0..9".to_string(),
    };
    tell::refused(refused.number, refused.place, Some(detail))
}

#[cfg(test)]
mod tests {
    use super::*;

    #[test]
    fn the_line_that_does_not_fit() {
        for (line, text) in [
            (1, ""),
            (1, "x"),
            (1, "format=0\nscheme=1\nrule=14\n"),
            (1, "format=1"),
            (2, "format=1\n"),
            (2, "format=1\nscheme=6\nrule=14\n"),
            (2, "format=1\nrule=14\nscheme=1\n"),
            (3, "format=2\nscheme=1\nrule=15\nlabel=A\n"),
            (3, "format=1\nscheme=1\nrule=14"),
            (3, "format=1\nscheme=1\nrule=14\r\n"),
            (4, "format=1\nscheme=1\nrule=14\nlabel=A\n"),
            (4, "format=2\nscheme=1\nrule=14\n"),
            (4, "format=2\nscheme=1\nrule=14\nlabel=a\n"),
            (4, "format=2\nscheme=1\nrule=14\nlabel=\n"),
            (5, "format=2\nscheme=1\nrule=14\nlabel=A\n\n"),
        ] {
            assert_eq!(misfit(text.as_bytes()), line, "{text:?}");
        }
    }
}
