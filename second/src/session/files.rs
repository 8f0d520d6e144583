//! A call on a session in a file: `session FILE offer SCHEME A S E SEED MESSAGE`
//! and so on, the words behind FILE those of the plain call; and `session FILE
//! close`.

use super::{Call, Inputs, Name, Seen};
use crate::files::{bytes, number, numbers, told, used, values, write};
use crate::hash::DIGEST;
use crate::schemes::scheme;
use std::io::{self, Error};
use std::sync::Arc;

/// What standard output gets. The session and the outputs are written, refused or
/// not.
pub fn run(file: &str, words: &[&str]) -> io::Result<String> {
    let mut session = bytes(file)?;
    let (call, outputs) = call(words)?;
    let seen = call.run(&mut session);
    write(file, &session)?;
    for (name, output) in outputs.iter().zip(&seen.outputs) {
        write(name, output)?;
    }
    Ok(told(match seen.refusal {
        Some(refusal) => Err(refusal),
        None => Ok(counts(call.name(), &seen)),
    }))
}

/// The call that the words are, and the files of its outputs.
fn call<'a>(words: &[&'a str]) -> io::Result<(Call, Vec<&'a str>)> {
    let (no, inputs, outputs) = match *words {
        ["offer", no, a, s, e, seed, message] => {
            let inputs = Inputs::Offer {
                a: Arc::new(numbers(a)?),
                s: values(s)?,
                e: values(e)?,
                seed: bytes(seed)?,
            };
            (number(no)?, inputs, vec![message])
        }
        ["reply", no, opening, a, s1, e1, e2, coins, message, key, digest] => {
            let inputs = Inputs::Reply {
                opening: bytes(opening)?,
                a: Arc::new(numbers(a)?),
                s1: values(s1)?,
                e1: values(e1)?,
                e2: values(e2)?,
                coins: bytes(coins)?,
            };
            (number(no)?, inputs, vec![message, key, digest])
        }
        ["finish", no, reply, s, key, digest] => {
            let inputs = Inputs::Finish {
                reply: bytes(reply)?,
                s: values(s)?,
            };
            (number(no)?, inputs, vec![key, digest])
        }
        ["close"] => (0, Inputs::Close, vec![]),
        _ => return Err(Error::other("no such command")),
    };
    // Just the room of each answer; of no scheme, none.
    let fixed = scheme(no);
    let key = fixed.map_or(0, |scheme| scheme.key_bytes);
    let rooms = match inputs {
        Inputs::Offer { .. } => vec![fixed.map_or(0, |scheme| scheme.opening_bytes())],
        Inputs::Reply { .. } => {
            vec![fixed.map_or(0, |scheme| scheme.reply_bytes()), key, DIGEST]
        }
        Inputs::Finish { .. } => vec![key, DIGEST],
        Inputs::Close => vec![],
    };
    Ok((Call::new("on files", no, inputs, &rooms), outputs))
}

/// The lines of an accepted call, as the plain one has them.
fn counts(name: Name, seen: &Seen) -> String {
    let names: &[&str] = match name {
        Name::Offer => &["written"],
        Name::Reply => &["message_written", "key_written", "digest_written"],
        Name::Finish => &["key_written", "digest_written"],
        Name::Close => &[],
    };
    let lines = names.iter().zip(&seen.written);
    let mut text: String = lines.map(|(name, n)| format!("{name}={n}\n")).collect();
    if name == Name::Finish {
        text.push_str(&used(seen.slack));
    }
    text
}
