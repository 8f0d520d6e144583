//! The help texts: an overview with a worked exchange, and a page a command,
//! made from the table.

use crate::calls::{self, SCHEMES};
use crate::data::Kind;
use crate::table::{By, Command, Form, Length, OnFiles, Opt, COMMANDS, OPTIONS};
use crate::tell::{self, Done};
use crate::{session, words};
use std::ffi::OsString;
use std::fmt::Write;

pub fn run(given: &[OsString]) -> Done {
    match given {
        [] => tell::page(&overview()),
        [word] if word == "statuses" => tell::page(STATUSES),
        name => pages(words::about(name)?),
    }
}

/// What `--help` behind any words shows: the page of their command.
pub fn of(words: &[OsString]) -> Done {
    match words {
        [] => run(&[]),
        words => match words::command(words) {
            Ok(found) => pages(vec![found.command]),
            Err(_) => run(words),
        },
    }
}

fn pages(commands: Vec<&Command>) -> Done {
    let pages: Vec<String> = commands.into_iter().map(page).collect();
    tell::page(&pages.join("\n"))
}

pub fn version(_: &[OsString]) -> Done {
    tell::page(&format!("wimmostry {}\n", calls::version()))
}

pub const ABOUT: &str = "\
Two boxes agree on a fresh key by BCNS, NewHope or Frodo. This program makes the calls of the
proved library on files.

";

pub const WORDS: &str = "
SCHEME is 0 BCNS, 1 NewHope, 2 Frodo Challenge, 3 Frodo Classical, 4 Frodo Recommended or
5 Frodo Paranoid, or a name as newhope or frodo-challenge. RULE is 14 low bits or 16 whole word, the
same at both ends; settings=FILE in the place of either takes it from a box's settings. LENGTH is a
number of bytes, LABEL up to 16 capital letters or digits. Every other word in capitals is a file, -
for standard input or output (once each way), or, of an input, none for nothing at all: BCNS has no
seed, Frodo no coins, and BCNS alone a table. A file that has such a name is ./- or ./none. The FILE
of a session and of wipe is a name. A word that begins with a dash is an option; -- ends them:

";

/// Lines of the shell: a link between two folders, with what each end says typed at
/// the other.
pub const LINK: &str = "\
\x20   wimmostry link open left newhope
    wimmostry link answer right left/opening
    wimmostry link finish left right/reply
    wimmostry link key left \"$(wimmostry link status right | sed -n s/^say=//p)\" left.key
    wimmostry link key right \"$(wimmostry link status left | sed -n s/^say=//p)\" right.key
    wimmostry link close left
    wimmostry link close right
";

const NUMBERS: &str = "
Public numbers (A) and secrets and noise (S, E, S1, E1, E2) are 32 bits each, the lowest byte
first, secrets and noise in two's complement. A TABLE is text. All else is bytes.

A link between two folders, left and right. Each end types what the other says, here by status:

";

const BY_HAND: &str = "
The same exchange by hand, one command a call, the initiator's folder left and the replier's right:

";

/// Lines of the shell. Standing alone they make two equal keys, by NewHope.
pub const EXCHANGE: &str = "\
\x20   mkdir left right
    wimmostry draw 1 seed left/seed
    wimmostry grow 14 left/seed left/a
    wimmostry draw 1 s left/s
    wimmostry draw 1 e left/e
    wimmostry offer 1 left/a left/s left/e left/seed left/opening
    cp left/opening right
    tail -c 32 right/opening >right/seed
    wimmostry grow 14 right/seed right/a
    wimmostry draw 1 s1 right/s1
    wimmostry draw 1 e1 right/e1
    wimmostry draw 1 e2 right/e2
    wimmostry draw 1 coins right/coins
    wimmostry reply 1 right/opening right/a right/s1 right/e1 right/e2 right/coins \\
      right/reply right/key right/digest
    cp right/reply left
    wimmostry finish 1 left/reply left/s left/key left/digest
    cmp left/digest right/digest
    for f in left/s left/e right/s1 right/e1 right/e2 right/coins; do wimmostry wipe $f; done
";

pub const REST: &str = "
Only NewHope's public numbers grow from a seed: in another scheme the initiator draws them (draw 0 a
left/a), and they go to the replier as well. Draw everything but a anew for each exchange. The keys
are raw, and the peer is whoever sent the message: see that messages come from whom you think,
confirm the keys, and hash them before use.

An output is a file that is not there yet: one that is there is status 3 before anything is read,
unless --replace stands first. It is written to a fresh file, brought to the disk and renamed into
its place, all outputs of a call or none; keys, digests, hashes, secrets, noise and sessions have
mode 600. A refused call leaves no output file; with --replace what stood there is overwritten and
removed, but for refusal 10, which touches nothing. A session and settings are kept and replaced
whole; after a refusal they stay. Outputs that are one file, or an input, are not taken; nor are two
secrets that are one file, a secret that others may read (--any-mode takes it), a symbolic link, a
pipe or a device, nor - where standard output is a terminal.

Whatever is removed or replaced is overwritten first. A run that is killed by 9 can leave temporary
files, .wimmostry-*: the next run that writes in that folder finds, wipes and tells them. A session
is locked by FILE.lock while a command works on it; a second one waits a second and is told busy.

wimmostry help statuses has the statuses and all refusals.
";

pub const STATUSES: &str = "\
Status 0: done; lines on standard output, as written=N (of reply and finish key_written=N and so
          on), agree or differ=I, of finish and bench slack=N and slack_index=I, of session
          stage=WORD and scheme=N.
Status 1: refused; one line on standard error, as
          refusal=6 place=3 input=e value=7 largest=6: a secret or noise value lies beyond ..
          1 no such scheme            4 a public number is q or more
         12 no such rule              5 a number of the message is q or more
          2 a wrong length           17 a message is blank: all its packed bytes are zero
          3 (not here)                6 a secret or noise is too large
         18 a table does not ascend   7 the stream of expand or grow ran out
          8 no trace, or no settings 10 the session's stage does not allow it (session and link)
         15 a newer settings' format 11 A has too few or too many numbers (rows alone)
          A blank message is an input, as a dead card sends it, or the answer, where a secret and
          its noise are zero. place counts from 0. A length of 33.. is 33 or more. No output file is
          left, and to - nothing is written.
Status 2: wrong words.
Status 3: a file: it is missing, is there already, is open to others, is busy, or cannot be written.
Status 4: the script box could not build the program, or the program is for another processor.
Status 5: done, but it could not be said: what was asked for stands, and must not be asked again.
Of 2, 3 and 5 standard error has lines that begin with 'wimmostry: '. With an output to - the lines
of an answer go to standard error too. With --json each answer, refusal and fault is an object.
";

fn overview() -> String {
    let mut text = ABOUT.to_string();
    for command in COMMANDS {
        let usage = format!("  wimmostry {} {}", command.name, command.usage());
        let _ = writeln!(text, "{}", usage.trim_end());
        let _ = writeln!(text, "      {}", command.brief);
    }
    text + WORDS + &options() + NUMBERS + LINK + BY_HAND + EXCHANGE + REST
}

fn options() -> String {
    let line = |x: &Opt| {
        let short = match x.short {
            "" => String::new(),
            short => format!("{short}, "),
        };
        format!("  {:<17}{}\n", short + x.name, x.what)
    };
    OPTIONS.iter().map(line).collect()
}

pub fn page(command: &Command) -> String {
    let usage = format!("wimmostry {} {}", command.name, command.usage());
    let mut text = format!("{}\n\n  {}\n\n", usage.trim_end(), command.brief);
    match &command.form {
        Form::Files(own) => files(own, &mut text),
        Form::Session(own) => {
            text.push_str(session::WORDS);
            files(&own.plain, &mut text);
        }
        Form::Kept(_) => text.push_str(session::WORDS),
        Form::Words(own) => {
            if own.usage.contains("SCHEME") && !own.words.contains("SCHEME") {
                text.push_str(&schemes(0));
            }
            text.push_str(own.words);
        }
    }
    if !text.ends_with("\n\n") {
        text.push('\n');
    }
    let _ = write!(
        text,
        "{}\n\nExample:\n    {}\n",
        command.more, command.example
    );
    text
}

/// `0 BCNS, 1 NewHope` and so on, in lines.
fn schemes(first: u32) -> String {
    let named = |no| (no, calls::name(no).unwrap_or_default());
    numbered("SCHEME", (first..SCHEMES).map(named))
}

/// A word that is a number, and what each stands for.
fn numbered(word: &str, each: impl IntoIterator<Item = (u32, &'static str)>) -> String {
    let mut text = String::new();
    for (k, (no, name)) in each.into_iter().enumerate() {
        let word = if k == 0 { word } else { "" };
        let _ = writeln!(text, "  {word:<9}{no} {name}");
    }
    text
}

fn files(own: &OnFiles, text: &mut String) {
    text.push_str(&match own.by {
        By::Scheme(first, _) => schemes(first),
        By::Rule => numbered("RULE", calls::rules()),
        By::Length => format!("  LENGTH   bytes of OUT, at most {}\n", words::LONGEST),
        By::Nothing => String::new(),
    });
    for x in own.inputs {
        entry(own, x.word, "in", x.kind, x.what, x.length, text);
    }
    for x in own.outputs {
        let way = if x.secret { "out, mode 600" } else { "out" };
        entry(own, x.word, way, x.kind, x.what, x.length, text);
    }
}

/// How wide a line is at most.
const PAGE: usize = 100;

fn entry(
    own: &OnFiles,
    word: &str,
    way: &str,
    kind: Kind,
    what: &str,
    length: Length,
    text: &mut String,
) {
    let unit = match kind {
        Kind::Numbers => "numbers",
        Kind::Values => "values",
        Kind::Bytes => "bytes",
        Kind::Words => "words of 64 bits",
        Kind::Rows => "numbers, row after row",
    };
    let _ = writeln!(text, "  {word:<9}{way}: {what}");
    let line = format!("           {unit}: {}", lengths(own, length));
    let line = match line.len() > PAGE {
        true => line.replace(" in schemes", "\n           in schemes"),
        false => line,
    };
    let _ = writeln!(text, "{line}");
}

/// How long in each scheme.
fn lengths(own: &OnFiles, length: Length) -> String {
    match length {
        Length::Fixed(n) => n.to_string(),
        Length::AtMost(n) => format!("at most {n}"),
        Length::Asked => "LENGTH".to_string(),
        Length::By(_) | Length::Either(..) => {
            let (first, last) = match own.by {
                By::Scheme(first, last) => (first, last),
                By::Rule | By::Length | By::Nothing => (0, SCHEMES - 1),
            };
            let each: Vec<String> = (first..=last)
                .map(|no| {
                    let known = length.known(calls::sizes(no).as_ref());
                    let texts: Vec<String> = known.iter().map(usize::to_string).collect();
                    texts.join(" or ")
                })
                .collect();
            format!("{} in schemes {first} to {last}", each.join(", "))
        }
    }
}

#[cfg(test)]
mod tests {
    use super::*;

    #[test]
    fn no_line_is_wider_than_a_page() {
        for text in COMMANDS
            .iter()
            .map(page)
            .chain([overview(), STATUSES.to_string()])
        {
            for line in text.lines() {
                assert!(line.chars().count() <= PAGE, "{line}");
                assert_eq!(line.trim_end(), line);
                // a reader has the papers by their names
                assert!(!line.contains("document 0"), "{line}");
            }
        }
    }
}
