//! A link: one command a message, in a folder that keeps all of it.

mod check;
mod folder;
mod numbers;
mod texts;
mod told;

pub use texts::*;

use crate::calls::{self, Drawn, Sizes, IDLE, KEYED, OFFERED};
use crate::data::{Data, Kind, Wiped};
use crate::draw::NEWHOPE;
use crate::escape::shown;
use crate::explain;
use crate::files::{self, Named};
use crate::fresh::Mode;
use crate::outputs::{self, Answer};
use crate::public;
use crate::random;
use crate::run::voice;
use crate::session::out_of_stage;
use crate::table::{Input, Length, FINISHES, REPLIES};
use crate::tell::{self, Done, Fault, Voice};
use crate::trace;
use crate::wipe;
use crate::words::{self, Place};
use check::{End, Exchange};
use folder::{quoted, Folder, Stage};
use numbers::{kept, rule_of, scheme_by, scheme_of, sizes};
use std::ffi::{OsStr, OsString};
use std::path::{Path, PathBuf};
use told::Told;

const OPENING: Input = Input {
    length: Length::By(|z| z.opening),
    ..message("OPENING")
};

const REPLY: Input = Input {
    length: Length::By(|z| z.reply),
    ..message("REPLY")
};

const fn message(word: &'static str) -> Input {
    Input {
        word,
        kind: Kind::Bytes,
        length: Length::Fixed(0),
        packed: None,
        secret: false,
        what: "the message of the peer",
    }
}

/// The folder's name.
fn path(word: &OsStr) -> Result<PathBuf, Fault> {
    match words::output("DIR", word)? {
        Place::File(path) => Ok(path),
        _ => Err(tell::words(format!(
            "link takes the name of a folder, not '{}'",
            shown(word)
        ))),
    }
}

/// The public numbers that the calls are lent, which Frodo makes of the seed; in NewHope
/// none, since they grow inside.
fn public(scheme: u32, sizes: &Sizes, seed: &[u8]) -> Wiped<u32> {
    match scheme {
        NEWHOPE => Wiped::zeros(0),
        _ => public::numbers(scheme, sizes, seed),
    }
}

// ---- the commands

pub fn open(given: &[OsString]) -> Done {
    let dir = path(&given[0])?;
    let kept = kept(&dir)?;
    let scheme = scheme_of(&dir, given.get(1), kept.map(|x| x.0))?;
    let rule = rule_of(&dir, given.get(2), kept.map(|x| x.1))?;
    let sizes = sizes(scheme)?;
    let mut folder = Folder::enter(&dir, true)?;
    let send = format!("send={}\n", shown(folder.file("opening")));
    match folder.stage()? {
        Stage::Idle => {}
        Stage::Offered(_) => {
            tell::say(Voice::Output, &send)?;
            return Err(expected(OFFERED, IDLE));
        }
        Stage::Keyed(_) => return Err(expected(KEYED, IDLE)),
    }
    let random = random::bytes(sizes.open_bytes)?;
    let lent = Drawn {
        scheme,
        rule,
        a: &public(scheme, &sizes, &random[..sizes.seed]),
        random: &random,
    };
    let mut opening = Data::zeros(Kind::Bytes, sizes.opening);
    let mut s = Data::zeros(Kind::Values, sizes.s);
    calls::session_open(&mut folder.session, &lent, &mut opening, &mut s)
        .map_err(|x| tell::refused(x.number, x.place, None))?;
    let told = Told {
        end: End::Opener,
        rule,
        lines: format!("stage={OFFERED}\nscheme={scheme}\n{send}"),
    };
    folder.moved(&[
        ("s", &s.to_file(), Mode::Closed),
        ("opening", opening.bytes(), Mode::Shown),
        ("told", told.text().as_bytes(), Mode::Closed),
    ])?;
    tell::say(Voice::Output, &told.lines)?;
    Ok(tell::DONE)
}

fn expected(stage: &str, expected: &str) -> Fault {
    out_of_stage(format!("stage={stage} expected={expected}"))
}

/// A message that has come, which is no file of the folder.
fn came(dir: &Path, input: &Input, word: &OsStr) -> Result<files::Lent, Fault> {
    let place = words::place(input.word, word)?;
    let named = Named {
        word: input.word,
        place: &place,
        secret: false,
    };
    folder::apart(dir, &[named], &[]).map_err(|mut fault| {
        let hint = "; keep what came outside the link's folder";
        fault.lines.iter_mut().for_each(|line| line.push_str(hint));
        fault
    })?;
    files::read(input, &place)
}

pub fn answer(given: &[OsString]) -> Done {
    let dir = path(&given[0])?;
    let kept = kept(&dir)?;
    let rule = rule_of(&dir, given.get(2), kept.map(|x| x.1))?;
    let opening = came(&dir, &OPENING, &given[1])?;
    let scheme = scheme_by(&opening, kept.map(|x| x.0))?;
    let sizes = sizes(scheme)?;
    let mut folder = Folder::enter(&dir, true)?;
    match folder.stage()? {
        Stage::Idle => {}
        Stage::Offered(_) => return Err(expected(OFFERED, IDLE)),
        Stage::Keyed(_) => return again(&folder, End::Replier, &opening, IDLE),
    }
    let random = random::bytes(sizes.answer_bytes)?;
    let lent = Drawn {
        scheme,
        rule,
        a: &public(scheme, &sizes, &opening.data.bytes()[..sizes.seed]),
        random: &random,
    };
    let mut reply = Data::zeros(Kind::Bytes, sizes.reply);
    let answered = calls::session_answer(&mut folder.session, &lent, &opening.data, &mut reply);
    answered.map_err(|x| {
        let detail = explain::refusal(&REPLIES, scheme, x, std::slice::from_ref(&opening));
        tell::refused(x.number, x.place, detail)
    })?;
    let said = Exchange {
        scheme,
        rule,
        opening: opening.data.bytes(),
        reply: reply.bytes(),
    };
    let key = calls::key(&folder.session).unwrap_or_default();
    let say = said.said(key, End::Replier);
    let send = shown(folder.file("reply"));
    let told = Told {
        end: End::Replier,
        rule,
        lines: format!("stage={KEYED}\nscheme={scheme}\nsend={send}\nsay={say}\n"),
    };
    folder.moved(&[
        ("opening", said.opening, Mode::Shown),
        ("reply", said.reply, Mode::Shown),
        ("told", told.text().as_bytes(), Mode::Closed),
    ])?;
    tell::say(Voice::Output, &told.lines)?;
    Ok(tell::DONE)
}

/// The lines of the last answer, where this end gave it and the same message has
/// come; else 10.
fn again(folder: &Folder, end: End, message: &files::Lent, allowed: &str) -> Done {
    let told = folder.told()?;
    let name = match end {
        End::Opener => "reply",
        End::Replier => "opening",
    };
    if told.end != end || folder.read(name)?[..] != *message.data.bytes() {
        return Err(expected(KEYED, allowed));
    }
    tell::say(Voice::Output, &told.lines)?;
    Ok(tell::DONE)
}

pub fn finish(given: &[OsString]) -> Done {
    let dir = path(&given[0])?;
    let reply = came(&dir, &REPLY, &given[1])?;
    let mut folder = Folder::enter(&dir, false)?;
    let scheme = match folder.stage()? {
        Stage::Idle => return Err(expected(IDLE, OFFERED)),
        Stage::Offered(scheme) => scheme,
        Stage::Keyed(_) => return again(&folder, End::Opener, &reply, OFFERED),
    };
    let sizes = sizes(scheme)?;
    let s = folder.secret(sizes.s)?;
    let (opening, rule) = (folder.read("opening")?, folder.told()?.rule);
    let mut out = [sizes.key, calls::DIGEST].map(|n| Data::zeros(Kind::Bytes, n));
    let lent = [&reply.data, &s];
    let done = calls::session_finish(&mut folder.session, scheme, &lent, &mut out);
    let answer = done.map_err(|x| {
        let detail = explain::refusal(&FINISHES, scheme, x, std::slice::from_ref(&reply));
        tell::refused(x.number, x.place, detail)
    })?;
    let said = Exchange {
        scheme,
        rule,
        opening: &opening,
        reply: reply.data.bytes(),
    };
    let key = calls::key(&folder.session).unwrap_or_default();
    let say = said.said(key, End::Opener);
    let slack = answer.slack.unwrap_or_default().largest;
    let margin = match sizes.margin {
        0 => String::new(),
        margin => format!("margin={margin}\n"),
    };
    let told = Told {
        end: End::Opener,
        rule,
        lines: format!("stage={KEYED}\nscheme={scheme}\nslack={slack}\n{margin}say={say}\n"),
    };
    folder.moved(&[
        ("reply", said.reply, Mode::Shown),
        ("told", told.text().as_bytes(), Mode::Closed),
    ])?;
    finished(&folder, scheme, slack);
    tell::say(Voice::Output, &told.lines)?;
    Ok(tell::DONE)
}

/// What comes behind the session: where it fails the link is keyed all the same, and
/// a line says so.
fn finished(folder: &Folder, scheme: u32, slack: u64) {
    let wiped = wipe::wipe(&folder.file("s")).map(|_| ());
    for done in [wiped, traced(folder, scheme, slack)] {
        if let Err(fault) = done {
            fault.lines.iter().for_each(|line| tell::note(line));
        }
    }
}

/// Adds an exchange to the trace, which is replaced whole.
fn traced(folder: &Folder, scheme: u32, slack: u64) -> Result<(), Fault> {
    let path = folder.file("trace");
    let old = match path.symlink_metadata() {
        Err(_) => Default::default(),
        Ok(_) => folder.read("trace")?.to_vec(),
    };
    let text = trace::added(&old, scheme, slack)
        .ok_or_else(|| tell::file(&path, "is no trace: the slack is not added to it"))?;
    folder.put(&[("trace", text.as_bytes(), Mode::Closed)])
}

pub fn key(given: &[OsString]) -> Done {
    let dir = path(&given[0])?;
    let place = [words::output("OUT", &given[2])?];
    let out = Named {
        word: "OUT",
        place: &place[0],
        secret: true,
    };
    folder::apart(&dir, &[], &[out])?;
    files::new(&place[0])?;
    let folder = Folder::enter(&dir, false)?;
    let scheme = match folder.stage()? {
        Stage::Keyed(scheme) => scheme,
        Stage::Offered(_) => return Err(expected(OFFERED, KEYED)),
        Stage::Idle => return Err(expected(IDLE, KEYED)),
    };
    let (opening, reply, told) = exchanged(&folder, scheme)?;
    let exchange = Exchange {
        scheme,
        rule: told.rule,
        opening: &opening,
        reply: &reply,
    };
    let raw = calls::key(&folder.session).unwrap_or_default();
    let heard = given[1].to_str().unwrap_or_default();
    if !exchange.heard(raw, told.end.other(), heard) {
        if exchange.heard(raw, told.end, heard) {
            tell::note("HEARD is what this end says: type what the peer said");
        } else if !check::whole(heard) {
            tell::note("HEARD is not 16 hexadecimal digits, with the marks - or without");
        }
        return Err(Fault {
            status: tell::REFUSED,
            lines: vec!["heard=differs".to_string()],
        });
    }
    let bytes = exchange.key(raw);
    let n = bytes.len();
    outputs::put(&[Answer {
        place: &place[0],
        bytes,
        mode: Mode::Closed,
        kept: false,
    }])?;
    tell::say(voice(&place), &format!("written={n}\n"))?;
    Ok(tell::DONE)
}

type Exchanged = (crate::data::Wiped<u8>, crate::data::Wiped<u8>, Told);

/// Both messages and what was told of a link that is keyed.
fn exchanged(folder: &Folder, scheme: u32) -> Result<Exchanged, Fault> {
    let sizes = sizes(scheme)?;
    let whole = |name: &str, n: usize| match folder.read(name)? {
        bytes if bytes.len() == n => Ok(bytes),
        _ => Err(tell::file(
            folder.file(name),
            "is not what the link left there",
        )),
    };
    let opening = whole("opening", sizes.opening)?;
    let reply = whole("reply", sizes.reply)?;
    Ok((opening, reply, folder.told()?))
}

pub fn close(given: &[OsString]) -> Done {
    let wiped = folder::close(&path(&given[0])?)?;
    tell::say(Voice::Output, &format!("stage={IDLE}\nwiped={wiped}\n"))?;
    Ok(tell::DONE)
}

pub fn status(given: &[OsString]) -> Done {
    let dir = path(&given[0])?;
    let folder = Folder::look(&dir)?;
    let named = quoted(&dir);
    let lines = match folder.stage()? {
        Stage::Idle => {
            let scheme = match kept(&dir)? {
                Some(_) => "",
                None => " SCHEME",
            };
            format!("stage={IDLE}\nnext=wimmostry link open {named}{scheme}\n")
        }
        Stage::Offered(scheme) => {
            let next = format!("next=wimmostry link finish {named} REPLY");
            format!("stage={OFFERED}\nscheme={scheme}\n{next}\n")
        }
        Stage::Keyed(scheme) => {
            let (opening, reply, told) = exchanged(&folder, scheme)?;
            let exchange = Exchange {
                scheme,
                rule: told.rule,
                opening: &opening,
                reply: &reply,
            };
            let key = calls::key(&folder.session).unwrap_or_default();
            let say = exchange.said(key, told.end);
            let next = format!("next=wimmostry link key {named} HEARD OUT");
            format!("stage={KEYED}\nscheme={scheme}\nsay={say}\n{next}\n")
        }
    };
    tell::say(Voice::Output, &lines)?;
    Ok(tell::DONE)
}
