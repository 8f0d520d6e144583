//! A call on files, with a session or without: the words, the files, the call,
//! the answer.

use crate::calls::{Sizes, OUT_OF_STAGE};
use crate::data::Data;
use crate::explain;
use crate::files::{self, Lent, Named};
use crate::fresh::Mode;
use crate::outputs::{self, Answer};
use crate::session::Kept;
use crate::table::{Length, OnFiles, Output};
use crate::tell::{self, Done, Fault, Voice};
use crate::words::{self, Asked, Place};
use std::ffi::OsString;

/// The words of a call.
struct Words {
    asked: Asked,
    sources: Vec<Place>,
    targets: Vec<Place>,
}

pub fn run(own: &OnFiles, mut session: Option<Kept>, given: &[OsString]) -> Done {
    let words = taken(own, given)?;
    apart(own, &words, session.as_ref())?;
    let _lock = session.as_ref().map(Kept::lock).transpose()?;
    made(own, &words, session.as_mut())
}

/// After a refusal no output is there: what is not there cannot be taken for an
/// answer.
pub fn cleared(mut fault: Fault, targets: &[Place]) -> Fault {
    if fault.status == tell::REFUSED {
        if let Err(mut other) = outputs::clear(targets) {
            fault.status = other.status;
            fault.lines.append(&mut other.lines);
        }
    }
    fault
}

fn taken(own: &OnFiles, given: &[OsString]) -> Result<Words, Fault> {
    let (asked, places) = own.by.asked(given)?;
    let (from, to) = places.split_at(own.inputs.len());
    let sources = own.inputs.iter().zip(from);
    let targets = own.outputs.iter().zip(to);
    Ok(Words {
        asked,
        sources: sources
            .map(|(x, word)| words::place(x.word, word))
            .collect::<Result<_, _>>()?,
        targets: targets
            .map(|(x, word)| words::output(x.word, word))
            .collect::<Result<_, _>>()?,
    })
}

/// That no two files are one that may not be, and that the outputs are new.
fn apart(own: &OnFiles, words: &Words, session: Option<&Kept>) -> Result<(), Fault> {
    let inputs = own.inputs.iter().zip(&words.sources);
    let inputs = inputs.map(|(x, place)| Named {
        word: x.word,
        place,
        secret: x.secret,
    });
    let inputs: Vec<Named> = words.asked.named().into_iter().chain(inputs).collect();
    let outputs = own.outputs.iter().zip(&words.targets);
    let outputs = outputs.map(|(x, place)| Named {
        word: x.word,
        place,
        secret: x.secret,
    });
    let mut outputs: Vec<Named> = outputs.collect();
    outputs.extend(session.into_iter().flat_map(Kept::named));
    files::no_clash(&inputs, &outputs)?;
    words.targets.iter().try_for_each(files::new)?;
    session.map_or(Ok(()), Kept::replaceable)
}

/// Reads, calls, writes and tells.
fn made(own: &OnFiles, words: &Words, mut session: Option<&mut Kept>) -> Done {
    let lent = read(own, &words.sources, session.as_deref_mut())?;
    let clear = |fault| cleared(fault, &words.targets);
    let asked = own.by.number(&words.asked).map_err(clear)?;
    let data: Vec<&Data> = lent.iter().map(|x| &x.data).collect();
    let sizes = own.by.sizes(asked);
    let room = |x: &Output| room(x, asked, sizes.as_ref());
    let mut out: Vec<Data> = own.outputs.iter().map(room).collect();
    let done = match &mut session {
        Some(session) => session.call(asked, &data, &mut out),
        None => (own.call)(asked, &data, &mut out),
    };
    if let Some(fault) = data.iter().find_map(|data| unread(data)) {
        return Err(fault);
    }
    let answer = done.map_err(|refused| match &session {
        // it touches no file
        Some(session) if refused.number == OUT_OF_STAGE => session.refusal(asked),
        _ => {
            let detail = explain::refusal(own, asked, refused, &lent);
            clear(tell::refused(refused.number, refused.place, detail))
        }
    })?;
    for (data, n) in out.iter_mut().zip(&answer.written) {
        data.truncate(*n);
    }
    save(own, &words.targets, out, session.as_deref())?;
    let stage = session.map(|session| session.told()).unwrap_or_default();
    let lines = tell::answer(own, &answer) + &stage;
    tell::say(voice(&words.targets), &lines)?;
    Ok(tell::DONE)
}

/// Reads all inputs, and the session; each that cannot be read has its line.
fn read(own: &OnFiles, sources: &[Place], session: Option<&mut Kept>) -> Result<Vec<Lent>, Fault> {
    let mut lent = vec![];
    let mut lines = vec![];
    if let Some(Err(mut fault)) = session.map(Kept::read) {
        lines.append(&mut fault.lines);
    }
    for (input, place) in own.inputs.iter().zip(sources) {
        match files::read(input, place) {
            Ok(one) => lent.push(one),
            Err(mut fault) => lines.append(&mut fault.lines),
        }
    }
    match lines.is_empty() {
        true => Ok(lent),
        false => Err(Fault {
            status: tell::FILE,
            lines,
        }),
    }
}

/// What a call that reads its rows itself could not read.
fn unread(data: &Data) -> Option<Fault> {
    match data {
        Data::Rows(rows) => rows.fault(),
        _ => None,
    }
}

/// Room for an output's answer: none where there is no such scheme.
fn room(output: &Output, asked: u32, sizes: Option<&Sizes>) -> Data {
    let room = match output.length {
        Length::Asked => asked as usize,
        length => length.known(sizes).into_iter().max().unwrap_or(0),
    };
    Data::zeros(output.kind, room)
}

/// The lines go to standard error where an answer takes standard output.
pub fn voice(targets: &[Place]) -> Voice {
    match targets.contains(&Place::Standard) {
        true => Voice::Error,
        false => Voice::Output,
    }
}

/// The session comes last: whatever ends the program in between, no session has
/// moved whose answer is not there.
fn save(
    own: &OnFiles,
    targets: &[Place],
    out: Vec<Data>,
    session: Option<&Kept>,
) -> Result<(), Fault> {
    let all = own.outputs.iter().zip(targets).zip(out);
    let answers: Vec<Answer> = all
        .map(|((output, place), data)| Answer {
            place,
            bytes: data.to_file(),
            mode: if output.secret {
                Mode::Closed
            } else {
                Mode::Open
            },
            kept: false,
        })
        .chain(session.and_then(Kept::answer))
        .collect();
    outputs::put(&answers)
}
