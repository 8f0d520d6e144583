//! A recorded trace, summed up by the proved function, whose archive is `trace`.

use crate::calls;
use crate::data::Kind;
use crate::escape::shown;
use crate::files;
use crate::options;
use crate::table::{Input, Length};
use crate::tell::{self, Done, Voice};
use crate::words;
use std::ffi::{OsStr, OsString};
use std::os::unix::ffi::OsStrExt;

pub const WORDS: &str = "\
\x20 FILE     in: the trace, up to 4096 lines scheme=N and slack=N in turn
";

pub const MORE: &str = "\
For each scheme in the trace, lowest first, it prints scheme=, exchanges=, sum= and largest=, a line
each; of an empty trace nothing. With --margins a line margin= follows each largest=, with what an
exchange of the scheme bears; NewHope has none. A line ends with LF, SCHEME is 0 to 5, and a number
has 1 to 10 digits and no zero in front. Any other text, a missing slack line or too many lines is
refused by the line refusal=8 alone; standard error has the line that does not fit. finish and bench
print the slack of an exchange, and link adds each to the file trace of its folder.";

/// Bytes of the longest trace: 2,048 times `scheme=N` and a slack of ten digits.
const LONGEST: usize = MOST * (9 + 17);

/// Bytes of the longest answer.
const ANSWER: usize = 372;

/// What the function says of a text that is no trace.
const REFUSAL: &[u8] = b"refusal=8\n";

const TRACE: Input = Input {
    word: "FILE",
    kind: Kind::Bytes,
    length: Length::AtMost(LONGEST),
    packed: None,
    secret: false,
    what: "the trace",
};

mod raw {
    extern "C" {
        pub fn trace_answer(
            text: *const u8,
            text_len: usize,
            out: *mut [u8; super::ANSWER],
        ) -> usize;
    }
}

/// Of a longer file one byte more than the longest trace is read, which is
/// refused like all of it.
pub fn run(given: &[OsString]) -> Done {
    let place = words::place(TRACE.word, &given[0])?;
    let lent = files::read(&TRACE, &place)?;
    let text = lent.data.bytes();
    let said = answer(text);
    let lines = String::from_utf8_lossy(&said);
    if said == REFUSAL {
        tell::say(Voice::Output, &lines)?;
        let name = place
            .path()
            .map_or(OsStr::new("standard input"), |path| path.as_os_str());
        tell::note(&format!("{}: {}", shown(name), misfit(text)));
        return Ok(tell::REFUSED);
    }
    // four lines a scheme
    let all: Vec<&str> = lines.split_inclusive('\n').collect();
    let each: Vec<String> = all.chunks(4).map(summed).collect();
    match options::given("--json") {
        true => each
            .iter()
            .try_for_each(|one| tell::say(Voice::Output, one))?,
        false => tell::say(Voice::Output, &each.concat())?,
    }
    Ok(tell::DONE)
}

/// The lines of a scheme, with its margin where that is asked for.
fn summed(lines: &[&str]) -> String {
    let number = lines.first().and_then(|line| line.strip_prefix("scheme="));
    let scheme = number.and_then(|number| number.trim_end().parse().ok());
    let margin = scheme
        .and_then(calls::sizes)
        .map_or(0, |sizes| sizes.margin);
    match options::given("--margins") && margin > 0 {
        true => format!("{}margin={margin}\n", lines.concat()),
        false => lines.concat(),
    }
}

/// What does not fit, by asking the proved function: the first line behind which no
/// good line makes it a trace. Lines count from 1.
fn misfit(text: &[u8]) -> String {
    let lines: Vec<&[u8]> = text.split_inclusive(|&byte| byte == b'\n').collect();
    let fits = |n: usize| {
        let good: &[u8] = if n % 2 == 1 { b"slack=0\n" } else { b"" };
        answer(&[&lines[..n].concat(), good].concat()) != REFUSAL
    };
    // what stands in front of lines that fit, fits
    let (mut fit, mut end) = (0, lines.len() + 1);
    while end - fit > 1 {
        let middle = (fit + end) / 2;
        match middle <= lines.len() && fits(middle) {
            true => fit = middle,
            false => end = middle,
        }
    }
    let due = if fit % 2 == 0 {
        "scheme=, 0 to 5"
    } else {
        "slack=N"
    };
    match lines.get(fit) {
        _ if fit == 2 * MOST => format!("line {} is one too many", fit + 1),
        None => format!("line {} is missing: {due}", fit + 1),
        Some(line) => {
            let line = line.strip_suffix(b"\n").unwrap_or(line);
            let line = shown(OsStr::from_bytes(&line[..line.len().min(SHOWN)]));
            format!("line {} is '{line}', not {due} and an LF", fit + 1)
        }
    }
}

/// How much is shown of a line that does not fit.
const SHOWN: usize = 40;

/// Exchanges that a trace has at most.
const MOST: usize = 2048;

/// A trace with one exchange more, of which the newest are kept; nothing where it is
/// none.
pub fn added(old: &[u8], scheme: u32, slack: u64) -> Option<String> {
    if answer(old) == REFUSAL {
        return None;
    }
    let lines: Vec<&str> = std::str::from_utf8(old)
        .ok()?
        .split_inclusive('\n')
        .collect();
    let first = lines.len().saturating_sub(2 * (MOST - 1));
    Some(format!(
        "{}scheme={scheme}\nslack={slack}\n",
        lines[first..].concat()
    ))
}

fn answer(text: &[u8]) -> Vec<u8> {
    let mut out = [0; ANSWER];
    // SAFETY: pointer and length are those of one slice, and the answer has the
    // room that the function is lent.
    let n = unsafe { raw::trace_answer(text.as_ptr(), text.len(), &mut out) };
    out[..n].to_vec()
}

#[cfg(test)]
mod tests {
    use super::*;

    #[test]
    fn the_longest_trace_and_one_line_more() {
        let lines = "scheme=5\nslack=9999999999\n".repeat(2048);
        assert_eq!(lines.len(), LONGEST);
        let told = b"scheme=5\nexchanges=2048\nsum=20479999997952\nlargest=9999999999\n";
        assert_eq!(answer(lines.as_bytes()), told);
        assert_eq!(answer((lines + "\n").as_bytes()), REFUSAL);
        assert_eq!(answer(b""), b"");
    }

    #[test]
    fn the_line_that_does_not_fit() {
        let full = "scheme=5\nslack=1\n".repeat(MOST);
        for (text, line) in [
            ("x", "line 1 is 'x', not scheme=, 0 to 5 and an LF"),
            (
                "scheme=6\n",
                "line 1 is 'scheme=6', not scheme=, 0 to 5 and an LF",
            ),
            ("scheme=5\n", "line 2 is missing: slack=N"),
            (
                "scheme=5\nslack=07\nx",
                "line 2 is 'slack=07', not slack=N and an LF",
            ),
            (
                "scheme=5\nslack=7",
                "line 2 is 'slack=7', not slack=N and an LF",
            ),
            (
                "scheme=5\nslack=7\n\n",
                "line 3 is '', not scheme=, 0 to 5 and an LF",
            ),
            (
                &format!("{full}scheme=5\nslack=1\n"),
                "line 4097 is one too many",
            ),
        ] {
            assert_eq!(answer(text.as_bytes()), REFUSAL);
            assert_eq!(misfit(text.as_bytes()), line);
        }
    }

    #[test]
    fn the_newest_are_kept() {
        assert_eq!(added(b"", 4, 7).unwrap(), "scheme=4\nslack=7\n");
        let full = "scheme=5\nslack=1\n".to_string() + &"scheme=0\nslack=2\n".repeat(2047);
        let newer = added(full.as_bytes(), 2, 3).unwrap();
        assert_eq!(
            newer,
            "scheme=0\nslack=2\n".repeat(2047) + "scheme=2\nslack=3\n"
        );
        assert_ne!(answer(newer.as_bytes()), REFUSAL);
        assert_eq!(added(b"scheme=5\n", 2, 3), None);
    }

    #[test]
    fn the_longest_answer_fits() {
        // all six schemes
        let lines = |scheme: u32| format!("scheme={scheme}\nslack=9999999999\n").repeat(341);
        let trace: String = (0..6).map(lines).collect();
        let told = answer(trace.as_bytes());
        assert!(told.len() <= ANSWER);
        assert_eq!(told.iter().filter(|&&byte| byte == b'\n').count(), 24);
    }
}
