//! What the program says: answers on standard output, refusals and what else is
//! wrong on standard error, with the status that goes with each.

use crate::calls::{self, Answer, Bench, Slack};
use crate::escape::shown;
use crate::json;
use crate::options;
use crate::table::OnFiles;
use std::ffi::OsStr;
use std::io::{self, ErrorKind, Write};

pub const DONE: u8 = 0;
pub const REFUSED: u8 = 1;
pub const WORDS: u8 = 2;
pub const FILE: u8 = 3;
/// Done, but it could not be said. 4 is that of the script `box`.
pub const UNSAID: u8 = 5;

/// What is wrong, a line each, and the status.
#[derive(Debug)]
pub struct Fault {
    pub status: u8,
    pub lines: Vec<String>,
}

/// The status of a command that could be run.
pub type Done = Result<u8, Fault>;

/// Wrong words.
pub fn words(line: String) -> Fault {
    Fault {
        status: WORDS,
        lines: vec![line],
    }
}

/// A file, and what is wrong with it.
pub fn file(name: impl AsRef<OsStr>, why: impl std::fmt::Display) -> Fault {
    Fault {
        status: FILE,
        lines: vec![format!("{}: {why}", shown(name))],
    }
}

/// A refusal in one line: number and place, what explains them, and the library's
/// sentence.
pub fn refused(number: u32, place: usize, detail: Option<String>) -> Fault {
    let detail = detail.map(|words| format!(" {words}")).unwrap_or_default();
    let sentence = calls::sentence(number);
    Fault {
        status: REFUSED,
        lines: vec![format!(
            "refusal={number} place={place}{detail}: {sentence}"
        )],
    }
}

/// The system's reason without its number.
pub fn reason(error: &io::Error) -> String {
    let text = error.to_string();
    match text.find(" (os error") {
        Some(end) => text[..end].to_string(),
        None => text,
    }
}

/// Where the lines of an answer go.
#[derive(Clone, Copy, PartialEq)]
pub enum Voice {
    Output,
    /// Standard output is taken by an answer.
    Error,
}

/// Says an answer's lines: what was done is done, also where they cannot be said.
pub fn say(voice: Voice, lines: &str) -> Result<(), Fault> {
    if options::given("--quiet") || lines.is_empty() {
        return Ok(());
    }
    let lines = match options::given("--json") {
        true => json::object(lines),
        false => lines.to_string(),
    };
    let (name, said) = match voice {
        Voice::Output => ("standard output", show(&lines)),
        Voice::Error => ("standard error", io::stderr().write_all(lines.as_bytes())),
    };
    said.map_err(|error| Fault {
        status: UNSAID,
        lines: vec![format!(
            "{name}: done, but it could not be said: {}",
            reason(&error)
        )],
    })
}

/// Prints a text as it stands.
pub fn show(text: &str) -> io::Result<()> {
    let mut out = io::stdout();
    out.write_all(text.as_bytes()).and_then(|()| out.flush())
}

/// Prints a page, for which nothing was done. A reader that has gone away wants no
/// more of it.
pub fn page(text: &str) -> Done {
    match show(text) {
        Err(error) if error.kind() != ErrorKind::BrokenPipe => Err(Fault {
            status: UNSAID,
            lines: vec![format!("standard output: {}", reason(&error))],
        }),
        _ => Ok(DONE),
    }
}

/// Says on standard error what was seen to besides.
pub fn note(line: &str) {
    complain(&Fault {
        status: DONE,
        lines: vec![line.to_string()],
    });
}

/// Says what is wrong. Where that cannot be said, the status still tells.
pub fn complain(fault: &Fault) {
    for line in &fault.lines {
        let line = match (options::given("--json"), fault.status) {
            (true, REFUSED) => json::refusal(line),
            (true, status) => json::fault(status, line),
            (false, REFUSED) => format!("{line}\n"),
            (false, _) => format!("wimmostry: {line}\n"),
        };
        let _ = io::stderr().write_all(line.as_bytes());
    }
}

/// The lines of an answer.
pub fn answer(own: &OnFiles, answer: &Answer) -> String {
    let written = own.outputs.iter().zip(&answer.written);
    let mut lines: String = written.map(|(x, n)| format!("{}={n}\n", x.label)).collect();
    match answer.keys {
        Some(Bench::Agree) => lines.push_str("agree\n"),
        Some(Bench::Differ(bit)) => lines.push_str(&format!("differ={bit}\n")),
        None => {}
    }
    if let Some(Slack { largest, index }) = answer.slack {
        lines.push_str(&format!("slack={largest}\nslack_index={index}\n"));
    }
    lines
}

#[cfg(test)]
mod tests {
    use super::*;

    #[test]
    fn a_reason_has_no_number() {
        let error = io::Error::from_raw_os_error(2);
        assert_eq!(reason(&error), "No such file or directory");
    }
}
