//! What the entries of the table are made of: a command's words, its inputs and
//! outputs with their kinds and lengths, and the options.

use crate::calls::{self, Call, SessionCall, Sizes, SCHEMES};
use crate::data::Kind;
use crate::tell::{Done, Fault};
use crate::words::{self, Asked};
use std::ffi::{OsStr, OsString};

/// How long an input or an output is, in entries.
#[derive(Clone, Copy)]
pub enum Length {
    /// As the scheme has it.
    By(fn(&Sizes) -> usize),
    /// One of two, as the scheme has them.
    Either(fn(&Sizes) -> usize, fn(&Sizes) -> usize),
    /// One length for every scheme.
    Fixed(usize),
    /// Anything up to this.
    AtMost(usize),
    /// As LENGTH says.
    Asked,
}

impl Length {
    /// The lengths in a scheme. Where there is no such scheme only a length
    /// that all of them share is known.
    pub fn known(self, sizes: Option<&Sizes>) -> Vec<usize> {
        match (self, sizes) {
            (Length::Fixed(n) | Length::AtMost(n), _) => vec![n],
            (Length::By(of), Some(sizes)) => vec![of(sizes)],
            (Length::Either(one, other), Some(sizes)) => {
                let mut both = vec![one(sizes), other(sizes)];
                both.dedup();
                both
            }
            (Length::By(_) | Length::Either(..), None) | (Length::Asked, _) => vec![],
        }
    }

    pub fn fits(self, sizes: Option<&Sizes>, n: usize) -> bool {
        let known = self.known(sizes);
        match self {
            Length::AtMost(most) => n <= most,
            _ => known.contains(&n),
        }
    }

    /// The largest in any scheme.
    pub fn largest(self) -> usize {
        let all = (0..SCHEMES).flat_map(|no| self.known(calls::sizes(no).as_ref()));
        all.max().unwrap_or(0)
    }
}

pub struct Input {
    /// The word in capitals; in small letters it is the name in a refusal.
    pub word: &'static str,
    pub kind: Kind,
    pub length: Length,
    /// Of a message, where its packed part begins, of which refusals 5 and 17
    /// speak.
    pub packed: Option<fn(&Sizes) -> usize>,
    /// Whether nobody else may read it.
    pub secret: bool,
    pub what: &'static str,
}

impl Input {
    /// The packed part of a message that is long enough to have one.
    pub fn packed<'a>(&self, sizes: &Sizes, message: &'a [u8]) -> Option<&'a [u8]> {
        let start = self.packed?(sizes);
        message.get(start..start + sizes.opening - sizes.seed)
    }
}

#[derive(Clone, Copy)]
pub struct Output {
    pub word: &'static str,
    pub kind: Kind,
    pub length: Length,
    /// Whether nobody else may read it.
    pub secret: bool,
    /// Before the number of entries in the answer's line.
    pub label: &'static str,
    pub what: &'static str,
}

/// The number that comes before the inputs.
#[derive(Clone, Copy)]
pub enum By {
    /// SCHEME, and the first and the last that the call takes.
    Scheme(u32, u32),
    /// RULE.
    Rule,
    /// LENGTH, that of the output.
    Length,
    /// There is none.
    Nothing,
}

impl By {
    fn word(self) -> Option<&'static str> {
        match self {
            By::Scheme(..) => Some("SCHEME"),
            By::Rule => Some("RULE"),
            By::Length => Some("LENGTH"),
            By::Nothing => None,
        }
    }

    /// What the word says, and the words behind it.
    pub fn asked(self, given: &[OsString]) -> Result<(Asked, &[OsString]), Fault> {
        let asked = match self {
            By::Scheme(..) => words::scheme(&given[0])?,
            By::Rule => words::rule(&given[0])?,
            By::Length => Asked::Number(words::length(&given[0])?),
            By::Nothing => return Ok((Asked::Number(0), given)),
        };
        Ok((asked, &given[1..]))
    }

    /// The number, from the settings where they have it.
    pub fn number(self, asked: &Asked) -> Result<u32, Fault> {
        match self {
            By::Rule => asked.rule(),
            By::Scheme(..) | By::Length | By::Nothing => asked.scheme(),
        }
    }

    /// The fixed numbers, where they go by a scheme and there is such a scheme.
    pub fn sizes(self, number: u32) -> Option<Sizes> {
        match self {
            By::Scheme(first, last) if !(first..=last).contains(&number) => None,
            By::Scheme(..) => calls::sizes(number),
            By::Rule | By::Length | By::Nothing => None,
        }
    }
}

/// A call of the library on files: a number if it has one, inputs, outputs.
pub struct OnFiles {
    pub by: By,
    pub inputs: &'static [Input],
    pub outputs: &'static [Output],
    pub call: Call,
}

/// A call on a session, whose file the name has as FILE: then come the words of
/// the call without one.
pub struct OnSession {
    pub plain: OnFiles,
    /// The stage in which it is allowed.
    pub allowed: &'static str,
    /// Whether it leads to another.
    pub moves: bool,
    pub call: SessionCall,
}

/// A command that reads its words itself.
pub struct OnWords {
    pub usage: &'static str,
    pub least: usize,
    pub most: usize,
    pub run: fn(&[OsString]) -> Done,
    /// The part of its help that says what the words are.
    pub words: &'static str,
}

pub enum Form {
    Files(OnFiles),
    Session(OnSession),
    /// What takes a session's file and no other word.
    Kept(fn(&OsStr) -> Done),
    Words(OnWords),
}

pub struct Command {
    /// One word, or of a hash and by rows two; of a session three, with FILE for
    /// any word in the middle.
    pub name: &'static str,
    /// One line for the overview.
    pub brief: &'static str,
    pub form: Form,
    /// What else there is to know.
    pub more: &'static str,
    pub example: &'static str,
}

/// The word in a name that stands for the file of a session.
const FILE: &str = "FILE";

impl Command {
    /// Whether these words are its name or the beginning of it; FILE is any.
    pub fn begins(&self, words: &[OsString]) -> bool {
        let mut name = self.name.split(' ');
        let is = |word: &OsString| name.next().is_some_and(|own| own == FILE || word == own);
        words.iter().all(is)
    }

    /// Whether these words are its name or the beginning of it, where FILE is
    /// left out, as in `help session offer`.
    pub fn begins_without_file(&self, words: &[OsString]) -> bool {
        let mut name = self.name.split(' ').filter(|&own| own != FILE);
        let is = |word: &OsString| name.next().is_some_and(|own| word == own);
        words.iter().all(is)
    }

    /// How many words the name has, and where FILE stands in it.
    pub fn name_words(&self) -> (usize, Option<usize>) {
        let mut name = self.name.split(' ');
        (name.clone().count(), name.position(|own| own == FILE))
    }

    /// The words that it takes.
    pub fn usage(&self) -> String {
        match &self.form {
            Form::Words(own) => own.usage.to_string(),
            Form::Kept(_) => String::new(),
            Form::Files(own) | Form::Session(OnSession { plain: own, .. }) => {
                let inputs = own.inputs.iter().map(|x| x.word);
                let outputs = own.outputs.iter().map(|x| x.word);
                let words: Vec<&str> = own
                    .by
                    .word()
                    .into_iter()
                    .chain(inputs)
                    .chain(outputs)
                    .collect();
                words.join(" ")
            }
        }
    }

    /// The least and the largest number of words behind the name.
    pub fn counts(&self) -> (usize, usize) {
        match &self.form {
            Form::Words(own) => (own.least, own.most),
            Form::Kept(_) => (0, 0),
            Form::Files(own) | Form::Session(OnSession { plain: own, .. }) => {
                let n = own.by.word().iter().len() + own.inputs.len() + own.outputs.len();
                (n, n)
            }
        }
    }
}

/// A word that begins with a dash.
pub struct Opt {
    pub name: &'static str,
    pub short: &'static str,
    /// The command that takes it, where not all do.
    pub only: Option<&'static str>,
    pub what: &'static str,
}

pub const fn option(name: &'static str, short: &'static str, what: &'static str) -> Opt {
    Opt {
        name,
        short,
        only: None,
        what,
    }
}
