//! The calls on files, as the command line has them: `offer SCHEME A S E SEED
//! MESSAGE` and so on. Numbers are 32 bits, the lowest byte first, an input
//! `none` is empty, and a table is text. Returns what standard output gets. For good words and
//! readable files only; the refusals are the calls' own, and what explains them
//! in the command line's line is not told here.

use crate::calls::{bench, expand, finish, grow, noise, offer, reply, sha3_256, shake128, Bench};
use crate::calls::{settings_read, settings_write, Read};
use crate::expand::COUNT;
use crate::hash::DIGEST;
use crate::reconcile::Slack;
use crate::refusal::Refusal;
use crate::schemes::scheme;
use crate::session;
use crate::settings::LABEL;
use crate::table;
use crate::trace::trace;
use std::io::{self, Error};
use std::num::ParseIntError;
use std::str::FromStr;

pub fn run(words: &[&str]) -> io::Result<String> {
    match *words {
        ["offer", no, a, s, e, seed, out] => {
            let no = number(no)?;
            let mut message = vec![0; scheme(no).map_or(0, |s| s.opening_bytes())];
            let done = offer(
                no,
                &numbers(a)?,
                &values(s)?,
                &values(e)?,
                &bytes(seed)?,
                &mut message,
            );
            write(out, &message)?;
            Ok(told(done.map(|n| format!("written={n}\n"))))
        }
        ["reply", no, opening, a, s1, e1, e2, coins, out, key_out, digest_out] => {
            let no = number(no)?;
            let mut message = vec![0; scheme(no).map_or(0, |s| s.reply_bytes())];
            let mut key = vec![0; scheme(no).map_or(0, |s| s.key_bytes)];
            let mut digest = [0; DIGEST];
            let (opening, a, coins) = (bytes(opening)?, numbers(a)?, bytes(coins)?);
            let (s1, e1, e2) = (values(s1)?, values(e1)?, values(e2)?);
            let done = reply(
                no,
                &opening,
                &a,
                &s1,
                &e1,
                &e2,
                &coins,
                &mut message,
                &mut key,
                &mut digest,
            );
            write(out, &message)?;
            write(key_out, &key)?;
            write(digest_out, &digest)?;
            Ok(told(done.map(|(n, k, d)| {
                format!("message_written={n}\nkey_written={k}\ndigest_written={d}\n")
            })))
        }
        ["finish", no, message, s, key_out, digest_out] => {
            let no = number(no)?;
            let mut key = vec![0; scheme(no).map_or(0, |s| s.key_bytes)];
            let mut digest = [0; DIGEST];
            let done = finish(no, &bytes(message)?, &values(s)?, &mut key, &mut digest);
            write(key_out, &key)?;
            write(digest_out, &digest)?;
            Ok(told(done.map(|(k, d, slack)| {
                let slack = used(slack);
                format!("key_written={k}\ndigest_written={d}\n{slack}")
            })))
        }
        ["noise", no, random, table, out] => {
            let (random, table) = (bytes(random)?, table_of(table)?);
            let mut drawn = vec![0; random.len()];
            let done = noise(number(no)?, &random, &table, &mut drawn);
            // after a refusal it is not known which of the two lengths was meant
            drawn.truncate(done.unwrap_or(0));
            write(out, &words_of(drawn.iter().map(|&v| v as u32)))?;
            Ok(told(done.map(|n| format!("written={n}\n"))))
        }
        ["expand", rule, stream, out] => {
            let mut taken = vec![0; COUNT];
            let done = expand(number(rule)?, &bytes(stream)?, &mut taken);
            write(out, &words_of(taken))?;
            Ok(told(done.map(|n| format!("written={n}\n"))))
        }
        ["grow", rule, seed, out] => {
            let mut grown = vec![0; COUNT];
            let done = grow(number(rule)?, &bytes(seed)?, &mut grown);
            write(out, &words_of(grown))?;
            Ok(told(done.map(|n| format!("written={n}\n"))))
        }
        ["hash", "shake128", length, input, out] => {
            let mut output = vec![0; number(length)?];
            let done = shake128(&bytes(input)?, &mut output);
            write(out, &output)?;
            Ok(told(done.map(|n| format!("written={n}\n"))))
        }
        ["hash", "sha3-256", input, out] => {
            let mut output = [0; DIGEST];
            let done = sha3_256(&bytes(input)?, &mut output);
            write(out, &output)?;
            Ok(told(done.map(|n| format!("written={n}\n"))))
        }
        ["bench", no, a, s, e, seed, s1, e1, e2, coins] => {
            let (a, seed, coins) = (numbers(a)?, bytes(seed)?, bytes(coins)?);
            let (s, e) = (values(s)?, values(e)?);
            let (s1, e1, e2) = (values(s1)?, values(e1)?, values(e2)?);
            let done = bench(number(no)?, &a, &s, &e, &seed, &s1, &e1, &e2, &coins);
            Ok(told(done.map(|(compared, slack)| match compared {
                Bench::Agree => format!("agree\n{}", used(slack)),
                Bench::Differ(bit) => format!("differ={bit}\n{}", used(slack)),
            })))
        }
        ["settings", "read", file] => {
            let mut label = [0; LABEL];
            let read = settings_read(2, &bytes(file)?, &mut label);
            Ok(told(read.told.map(|n| lines_of(&read, &label[..n]))))
        }
        ["settings", "write", no, rule, ref rest @ .., out] => {
            let label = rest.first().map_or(&b""[..], |label| label.as_bytes());
            let mut text = [0; 64];
            let done = settings_write(number(no)?, number(rule)?, label, &mut text);
            // after a refusal what stood there stays
            if let Ok(n) = done {
                write(out, &text[..n])?;
            }
            Ok(told(done.map(|n| format!("written={n}\n"))))
        }
        ["session", file, ref call @ ..] => session::files::run(file, call),
        ["trace", file] => String::from_utf8(trace(&bytes(file)?)).map_err(Error::other),
        _ => Err(Error::other("no such command")),
    }
}

pub(crate) fn told(done: Result<String, Refusal>) -> String {
    done.unwrap_or_else(|r| format!("refusal={} place={}\n", r.number, r.place))
}

pub(crate) fn used(slack: Slack) -> String {
    let Slack { largest, index } = slack;
    format!("slack={largest}\nslack_index={index}\n")
}

/// The lines of settings read, the label's where there is one.
fn lines_of(read: &Read, label: &[u8]) -> String {
    let Read {
        format,
        scheme,
        rule,
        ..
    } = read;
    let lines = format!("format={format}\nscheme={scheme}\nrule={rule}\n");
    match label {
        [] => lines,
        _ => format!("{lines}label={}\n", String::from_utf8_lossy(label)),
    }
}

pub(crate) fn number<T: FromStr<Err = ParseIntError>>(word: &str) -> io::Result<T> {
    word.parse().map_err(Error::other)
}

pub(crate) fn bytes(name: &str) -> io::Result<Vec<u8>> {
    if name == "none" {
        return Ok(vec![]);
    }
    std::fs::read(name)
}

/// A table is text, as `data/bcns-table.txt` is.
fn table_of(name: &str) -> io::Result<Vec<u64>> {
    let text = String::from_utf8(bytes(name)?).map_err(Error::other)?;
    table::read(&text).ok_or_else(|| Error::other("no table"))
}

pub(crate) fn numbers(name: &str) -> io::Result<Vec<u32>> {
    let bytes = bytes(name)?;
    let word = |four: &[u8]| u32::from_le_bytes([four[0], four[1], four[2], four[3]]);
    Ok(bytes.chunks_exact(4).map(word).collect())
}

pub(crate) fn values(name: &str) -> io::Result<Vec<i32>> {
    Ok(numbers(name)?.into_iter().map(|word| word as i32).collect())
}

fn words_of(numbers: impl IntoIterator<Item = u32>) -> Vec<u8> {
    numbers.into_iter().flat_map(u32::to_le_bytes).collect()
}

pub(crate) fn write(name: &str, bytes: &[u8]) -> io::Result<()> {
    std::fs::write(name, bytes)
}
