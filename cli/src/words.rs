//! Words of the command line: which command, which number, which file.

use crate::calls::{self, rules, Settings, SCHEMES};
use crate::escape::shown;
use crate::files::Named;
use crate::near;
use crate::settings;
use crate::table::{Command, COMMANDS, HIDDEN};
use crate::tell::{self, Fault};
use std::ffi::{OsStr, OsString};
use std::os::unix::ffi::OsStrExt;
use std::path::{Path, PathBuf};

/// A command, the word in its name that is a session's file, empty where there is
/// none, and the words behind the name.
pub struct Found<'a> {
    pub command: &'static Command,
    pub file: &'a OsStr,
    pub rest: &'a [OsString],
}

/// The command whose name the words begin with.
pub fn command(words: &[OsString]) -> Result<Found<'_>, Fault> {
    for count in 1..=words.len().min(LONGEST_NAME) {
        let (name, rest) = words.split_at(count);
        let whole = |c: &&Command| c.begins(name) && c.name_words().0 == count;
        if let Some(command) = COMMANDS.iter().chain(HIDDEN).find(whole) {
            let (_, at) = command.name_words();
            let file = at.map(|at| name[at].as_os_str()).unwrap_or_default();
            return Ok(Found {
                command,
                file,
                rest,
            });
        }
    }
    let several = about(&words[..1])?;
    let hint = words
        .get(1)
        .map(|word| near::hint(word, last_words(&several)));
    let usages = several.iter().map(|c| format!("{} {}", c.name, c.usage()));
    let usages: Vec<String> = usages.map(|usage| usage.trim_end().to_string()).collect();
    Err(tell::words(format!(
        "{} is one of several{}: {}",
        shown(&words[0]),
        hint.unwrap_or_default(),
        usages.join("; ")
    )))
}

fn last_words<'a>(several: &'a [&Command]) -> impl Iterator<Item = &'a str> {
    several.iter().filter_map(|c| c.name.split(' ').next_back())
}

/// Words in the longest name of a command.
const LONGEST_NAME: usize = 3;

/// The commands whose names begin with these words.
pub fn about(name: &[OsString]) -> Result<Vec<&'static Command>, Fault> {
    let mut found: Vec<&Command> = COMMANDS
        .iter()
        .filter(|c| c.begins_without_file(name))
        .collect();
    if found.is_empty() {
        found = COMMANDS.iter().filter(|c| c.begins(name)).collect();
    }
    if found.is_empty() {
        let words: Vec<String> = name.iter().map(shown).collect();
        let firsts = COMMANDS.iter().filter_map(|c| c.name.split(' ').next());
        let several: Vec<&Command> = COMMANDS.iter().filter(|c| c.begins(&name[..1])).collect();
        let hint = match (name, &several[..]) {
            ([_, word, ..], [_, ..]) => near::hint(word, last_words(&several)),
            _ => near::hint(&name[0], firsts),
        };
        return Err(tell::words(format!(
            "there is no command '{}'{hint}; 'wimmostry help' lists them",
            words.join(" ")
        )));
    }
    Ok(found)
}

/// Whether a command can have so many words.
pub fn counted(command: &Command, n: usize) -> Result<(), Fault> {
    let (least, most) = command.counts();
    if (least..=most).contains(&n) {
        return Ok(());
    }
    let usage = match command.usage() {
        usage if usage.is_empty() => "no words".to_string(),
        usage => usage,
    };
    Err(tell::words(format!("{} takes {usage}", command.name)))
}

/// A number: decimal, 32 bits, no leading zero. Whether there is such a scheme or
/// rule is the call's to say.
fn number(word: &OsStr) -> Option<u32> {
    let digits = word.to_str().filter(|w| {
        let plain = !w.is_empty() && w.bytes().all(|b| b.is_ascii_digit());
        plain && (w.len() == 1 || !w.starts_with('0'))
    });
    digits.and_then(|w| w.parse().ok())
}

/// A number that a word gives, or the box's settings that have it.
pub enum Asked {
    Number(u32),
    Kept(Place),
}

impl Asked {
    /// What a word `settings=FILE` in the place of a number names.
    fn kept(word: &OsStr) -> Result<Option<Asked>, Fault> {
        match word.as_bytes().strip_prefix(b"settings=") {
            None => Ok(None),
            Some(file) => Ok(Some(Asked::Kept(place(
                "settings=",
                OsStr::from_bytes(file),
            )?))),
        }
    }

    /// The settings, as an input of the command.
    pub fn named(&self) -> Option<Named<'_>> {
        match self {
            Asked::Number(_) => None,
            Asked::Kept(place) => Some(Named {
                word: "settings=",
                place,
                secret: false,
            }),
        }
    }

    pub fn scheme(&self) -> Result<u32, Fault> {
        self.number(|settings| settings.scheme)
    }

    pub fn rule(&self) -> Result<u32, Fault> {
        self.number(|settings| settings.rule)
    }

    fn number(&self, of: fn(&Settings) -> u32) -> Result<u32, Fault> {
        match self {
            Asked::Number(number) => Ok(*number),
            Asked::Kept(place) => Ok(of(&settings::from(place)?)),
        }
    }
}

/// The scheme's name as a word: `frodo-recommended`.
pub fn scheme_word(scheme: u32) -> String {
    let name = calls::name(scheme).unwrap_or_default();
    name.to_lowercase().replace(' ', "-")
}

pub fn scheme(word: &OsStr) -> Result<Asked, Fault> {
    if let Some(kept) = Asked::kept(word)? {
        return Ok(kept);
    }
    let names: Vec<String> = (0..SCHEMES).map(scheme_word).collect();
    let named = names
        .iter()
        .position(|name| word.eq_ignore_ascii_case(name));
    let named = named.and_then(|no| u32::try_from(no).ok());
    named.or(number(word)).map(Asked::Number).ok_or_else(|| {
        let hint = match near::hint(word, names.iter().map(String::as_str)) {
            hint if hint.is_empty() => format!("; the names are {}", names.join(", ")),
            hint => hint,
        };
        tell::words(format!(
            "SCHEME is a number from 0 to {} or a name, not '{}'{hint}",
            SCHEMES - 1,
            shown(word)
        ))
    })
}

pub fn rule(word: &OsStr) -> Result<Asked, Fault> {
    if let Some(kept) = Asked::kept(word)? {
        return Ok(kept);
    }
    let [(one, _), (other, _)] = rules();
    let line = || tell::words(format!("RULE is {one} or {other}, not '{}'", shown(word)));
    number(word).map(Asked::Number).ok_or_else(line)
}

/// The longest output that is made: it is held in memory whole.
pub const LONGEST: u32 = 1 << 24;

pub fn length(word: &OsStr) -> Result<u32, Fault> {
    let fitting = number(word).filter(|&n| n <= LONGEST);
    fitting.ok_or_else(|| {
        tell::words(format!(
            "LENGTH is a number from 0 to {LONGEST}, not '{}'",
            shown(word)
        ))
    })
}

/// Where an input comes from or an output goes to.
#[derive(Clone, PartialEq)]
pub enum Place {
    /// `-`: standard input or output.
    Standard,
    /// `none`: an input that is empty.
    Nothing,
    File(PathBuf),
}

impl Place {
    pub fn path(&self) -> Option<&Path> {
        match self {
            Place::File(path) => Some(path),
            _ => None,
        }
    }
}

/// The word of an input or output, named in capitals.
pub fn place(name: &str, word: &OsStr) -> Result<Place, Fault> {
    match word.to_str() {
        Some("") => Err(tell::words(format!("{name} is an empty word, no file"))),
        Some("-") => Ok(Place::Standard),
        Some("none") => Ok(Place::Nothing),
        _ => Ok(Place::File(word.into())),
    }
}

/// An output goes somewhere.
pub fn output(name: &str, word: &OsStr) -> Result<Place, Fault> {
    match place(name, word)? {
        Place::Nothing => Err(tell::words(format!(
            "{name} is an output, and none is for inputs; a file of that name is ./none"
        ))),
        place => Ok(place),
    }
}

#[cfg(test)]
mod tests {
    use super::*;

    #[test]
    fn numbers() {
        for (word, is) in [("0", 0), ("16", 16), ("99", 99), ("4294967295", u32::MAX)] {
            assert_eq!(number(OsStr::new(word)), Some(is));
        }
        for word in [
            "",
            "x",
            "-1",
            "+1",
            "01",
            "00",
            "1x",
            " 1",
            "4294967296",
            "١",
        ] {
            assert_eq!(number(OsStr::new(word)), None, "{word}");
        }
    }

    #[test]
    fn places() {
        let of = |word: &str| place("A", OsStr::new(word)).ok();
        assert!(of("-") == Some(Place::Standard));
        assert!(of("none") == Some(Place::Nothing));
        assert!(of("./none") == Some(Place::File("./none".into())));
        assert!(of("").is_none());
        assert!(output("KEY", OsStr::new("none")).is_err());
    }
}
