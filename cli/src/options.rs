//! The options: words that begin with a dash and stand before `--`. Which there
//! are is in the table.

use crate::near;
use crate::table::OPTIONS;
use crate::tell::{self, Fault};
use std::ffi::{OsStr, OsString};
use std::os::unix::ffi::OsStrExt;
use std::sync::OnceLock;

/// The names of the options that were given.
static GIVEN: OnceLock<Vec<&'static str>> = OnceLock::new();

pub fn given(name: &str) -> bool {
    GIVEN.get().is_some_and(|all| all.contains(&name))
}

/// Whether an output may stand in the place of a file that is there.
pub fn replace() -> bool {
    given("--replace")
}

/// Whether a secret may be open to others.
pub fn any_mode() -> bool {
    given("--any-mode")
}

/// Takes the options out of the words; gives the others.
pub fn take(words: impl Iterator<Item = OsString>) -> Result<Vec<OsString>, Fault> {
    let (given, rest, wrong) = parted(words);
    let _ = GIVEN.set(given);
    match wrong {
        None => Ok(rest),
        Some(word) => {
            let hint = near::hint(&word, OPTIONS.iter().map(|option| option.name));
            Err(tell::words(format!(
                "there is no option '{}'{hint}; a file of that name is ./{0} or stands behind --",
                crate::escape::shown(&word)
            )))
        }
    }
}

type Parted = (Vec<&'static str>, Vec<OsString>, Option<OsString>);

/// The options, the other words, and the first word that begins with a dash and is
/// no option.
fn parted(words: impl Iterator<Item = OsString>) -> Parted {
    let (mut given, mut rest, mut wrong) = (vec![], vec![], None);
    let mut open = true;
    for word in words {
        if !open || !dashed(&word) {
            rest.push(word);
        } else if word == "--" {
            open = false;
        } else {
            let option = OPTIONS.iter().find(|x| word == x.name || word == x.short);
            match option {
                Some(option) => given.push(option.name),
                None => wrong = wrong.or(Some(word)),
            }
        }
    }
    (given, rest, wrong)
}

/// `-` alone is standard input or output.
fn dashed(word: &OsStr) -> bool {
    word.len() > 1 && word.as_bytes()[0] == b'-'
}

#[cfg(test)]
mod tests {
    use super::*;

    #[test]
    fn dashes_end_them() {
        let of = |words: &[&str]| parted(words.iter().map(OsString::from));
        let (given, rest, wrong) = of(&["--replace", "draw", "1", "s", "-", "-h"]);
        assert_eq!((given, wrong), (vec!["--replace", "--help"], None));
        assert_eq!(rest, ["draw", "1", "s", "-"]);
        let (given, rest, wrong) = of(&["draw", "--", "--help", "--", "-x"]);
        assert_eq!((given.len(), wrong), (0, None));
        assert_eq!(rest, ["draw", "--help", "--", "-x"]);
        assert_eq!(of(&["draw", "-x", "--y"]).2, Some(OsString::from("-x")));
    }
}
