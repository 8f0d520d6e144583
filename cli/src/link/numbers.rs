//! The scheme and the rule of a link: from its settings, or from words.

use crate::calls::{self, Sizes, LOW_BITS, SCHEMES};
use crate::escape::shown;
use crate::explain;
use crate::files;
use crate::settings;
use crate::tell::{self, Fault};
use crate::words::{self, Asked, Place};
use std::ffi::OsString;
use std::path::Path;

/// What the folder's settings say, where there are any.
pub fn kept(dir: &Path) -> Result<Option<(u32, u32)>, Fault> {
    let file = dir.join("settings");
    match file.symlink_metadata() {
        Err(_) => Ok(None),
        Ok(_) => {
            let settings = settings::from(&Place::File(file))?;
            Ok(Some((settings.scheme, settings.rule)))
        }
    }
}

/// A number that a word may give and the settings may have: they must not differ.
fn agreed(
    dir: &Path,
    name: &str,
    word: Option<u32>,
    kept: Option<u32>,
) -> Result<Option<u32>, Fault> {
    match (word, kept) {
        (Some(word), Some(kept)) if word != kept => Err(tell::words(format!(
            "{} has {name} {kept}, not {word}",
            shown(dir.join("settings"))
        ))),
        (word, kept) => Ok(word.or(kept)),
    }
}

pub fn rule_of(dir: &Path, word: Option<&OsString>, kept: Option<u32>) -> Result<u32, Fault> {
    let word = word.map(|word| words::rule(word)).transpose()?;
    let word = word.as_ref().map(Asked::rule).transpose()?;
    let rule = agreed(dir, "rule", word, kept)?.unwrap_or(LOW_BITS);
    match calls::rules().iter().any(|(number, _)| *number == rule) {
        true => Ok(rule),
        false => Err(tell::refused(12, 0, Some(explain::no_rule(rule)))),
    }
}

pub fn scheme_of(dir: &Path, word: Option<&OsString>, kept: Option<u32>) -> Result<u32, Fault> {
    let word = word.map(|word| words::scheme(word)).transpose()?;
    let word = word.as_ref().map(Asked::scheme).transpose()?;
    let scheme = agreed(dir, "scheme", word, kept)?.ok_or_else(|| {
        tell::words(format!(
            "link open takes DIR SCHEME [RULE] where there is no {}",
            shown(dir.join("settings"))
        ))
    })?;
    match calls::sizes(scheme) {
        Some(_) => Ok(scheme),
        None => {
            let detail = explain::no_scheme(scheme, 0, SCHEMES - 1);
            Err(tell::refused(1, 0, Some(detail)))
        }
    }
}

pub fn sizes(scheme: u32) -> Result<Sizes, Fault> {
    let unknown = || tell::refused(1, 0, Some(explain::no_scheme(scheme, 0, SCHEMES - 1)));
    calls::sizes(scheme).ok_or_else(unknown)
}

/// The scheme whose opening has this length, which is that of the settings where
/// there are any.
pub fn scheme_by(opening: &files::Lent, kept: Option<u32>) -> Result<u32, Fault> {
    let allowed = |no: &u32| kept.is_none_or(|kept| kept == *no);
    let length = |no: u32| calls::sizes(no).map_or(0, |sizes| sizes.opening);
    let schemes: Vec<u32> = (0..SCHEMES).filter(allowed).collect();
    let found = schemes.iter().find(|no| length(**no) == opening.data.len());
    found.copied().ok_or_else(|| {
        let lengths: Vec<usize> = schemes.iter().map(|no| length(*no)).collect();
        let lengths = explain::listed(&lengths);
        let there = opening.there();
        let detail = format!("input=opening length={there} expected={lengths}");
        tell::refused(2, 0, Some(detail))
    })
}
