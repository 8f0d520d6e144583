//! The folder of a link: its files, its lock, and what a run that was killed left
//! in it.

use super::told::Told;
use crate::calls::{self, IDLE, KEYED, OFFERED, SESSION};
use crate::data::{Data, Kind, Wiped};
use crate::escape::shown;
use crate::files::{self, Named};
use crate::fresh::{self, Mode};
use crate::lock::Lock;
use crate::outputs::{self, Answer};
use crate::session;
use crate::table::{Input, Length};
use crate::tell::{self, reason, Fault};
use crate::wipe;
use crate::words::Place;
use std::ffi::OsStr;
use std::fs::DirBuilder;
use std::io::ErrorKind;
use std::os::unix::fs::{DirBuilderExt, MetadataExt};
use std::path::{Path, PathBuf};

/// The files of a link that a command may write, but for its trace.
const OWN: [&str; 6] = ["session", "s", "opening", "reply", "told", "lock"];

/// What a link that is idle has none of.
const UNDER_WAY: [&str; 4] = ["s", "opening", "reply", "told"];

const KEPT: Input = Input {
    word: "FILE",
    kind: Kind::Bytes,
    length: Length::AtMost(1 << 16),
    packed: None,
    secret: false,
    what: "a file of the link",
};

const SECRET: Input = Input {
    secret: true,
    ..KEPT
};

pub struct Folder {
    path: PathBuf,
    /// The session's bytes; an idle one where there is no file.
    pub session: Wiped<u8>,
    _lock: Option<Lock>,
}

/// Where a link stands.
#[derive(Clone, Copy, PartialEq)]
pub enum Stage {
    Idle,
    Offered(u32),
    Keyed(u32),
}

impl Folder {
    /// Enters it to work in it; where it is not there it may be made.
    pub fn enter(path: &Path, make: bool) -> Result<Folder, Fault> {
        if make && path.symlink_metadata().is_err() {
            made(path)?;
        }
        closed(path)?;
        let lock = Lock::take(&path.join("lock"))?;
        fresh::sweep(path);
        let folder = Folder {
            session: session_in(path, &SECRET)?,
            path: path.to_path_buf(),
            _lock: Some(lock),
        };
        folder.settled()?;
        Ok(folder)
    }

    /// Looks into it and changes nothing.
    pub fn look(path: &Path) -> Result<Folder, Fault> {
        is_folder(path)?;
        Ok(Folder {
            session: session_in(path, &KEPT)?,
            path: path.to_path_buf(),
            _lock: None,
        })
    }

    pub fn file(&self, name: &str) -> PathBuf {
        self.path.join(name)
    }

    /// Refusal 10 where the session's bytes are in no stage.
    pub fn stage(&self) -> Result<Stage, Fault> {
        match calls::stage(&self.session) {
            Some((IDLE, _)) => Ok(Stage::Idle),
            Some((OFFERED, Some(scheme))) => Ok(Stage::Offered(scheme)),
            Some((KEYED, Some(scheme))) => Ok(Stage::Keyed(scheme)),
            _ => Err(session::out_of_stage("stage=none".to_string())),
        }
    }

    /// What a run that was killed left: of a link that is still idle all, of one that
    /// is keyed s.
    fn settled(&self) -> Result<(), Fault> {
        let left: &[&str] = match self.stage() {
            Ok(Stage::Idle) => &UNDER_WAY,
            Ok(Stage::Keyed(_)) => &["s"],
            Ok(Stage::Offered(_)) | Err(_) => &[],
        };
        for name in left {
            let path = self.file(name);
            if path.symlink_metadata().is_ok() {
                wipe::remove(&path)?;
                tell::note(&format!(
                    "{}: left by a run that was killed: wiped",
                    shown(&path)
                ));
            }
        }
        Ok(())
    }

    pub fn read(&self, name: &str) -> Result<Wiped<u8>, Fault> {
        read(&self.file(name), &KEPT)
    }

    /// s, of this many values.
    pub fn secret(&self, values: usize) -> Result<Data, Fault> {
        let path = self.file("s");
        let bytes = read(&path, &SECRET)?;
        match bytes.len() == 4 * values {
            true => Ok(Data::from_file(Kind::Values, bytes)),
            false => Err(tell::file(&path, "is not what the link left there")),
        }
    }

    pub fn told(&self) -> Result<Told, Fault> {
        let path = self.file("told");
        let unknown = || tell::file(&path, "is not what the link left there");
        Told::of(&read(&path, &KEPT)?).ok_or_else(unknown)
    }

    /// Puts files into their places, and brings them and the folder to the disk; then
    /// the session, which moves the link.
    pub fn moved(&self, files: &[(&str, &[u8], Mode)]) -> Result<(), Fault> {
        self.put(files)?;
        let done = self.put(&[("session", &self.session, Mode::Closed)]);
        if done.is_err() && session_in(&self.path, &KEPT).is_ok_and(|x| x[..] == [0; SESSION]) {
            // nothing has begun
            for name in UNDER_WAY {
                let _ = wipe::remove(&self.file(name));
            }
        }
        done
    }

    pub fn put(&self, files: &[(&str, &[u8], Mode)]) -> Result<(), Fault> {
        let places: Vec<Place> = files.iter().map(|x| Place::File(self.file(x.0))).collect();
        let all = files.iter().zip(&places);
        let answers: Vec<Answer> = all
            .map(|((_, bytes, mode), place)| Answer {
                place,
                bytes: Wiped::collect(bytes.iter().copied()),
                mode: *mode,
                kept: true,
            })
            .collect();
        outputs::put(&answers)
    }
}

/// That no word of a command is a file of the folder.
pub fn apart(path: &Path, inputs: &[Named], outputs: &[Named]) -> Result<(), Fault> {
    let places = OWN.map(|name| Place::File(path.join(name)));
    let own = OWN.iter().zip(&places).map(|(word, place)| Named {
        word,
        place,
        secret: true,
    });
    let all: Vec<Named> = own.chain(outputs.iter().copied()).collect();
    files::no_clash(inputs, &all)
}

/// Overwrites session and s in place and removes the rest but settings and trace:
/// as much as can be, also where something cannot. Gives how many bytes were
/// overwritten.
pub fn close(path: &Path) -> Result<u64, Fault> {
    is_folder(path)?;
    let lock = Lock::take_if_room(&path.join("lock"))?;
    fresh::sweep(path);
    let there = |name: &str| path.join(name).symlink_metadata().is_ok();
    let mut wiped = 0;
    let mut lines = vec![];
    for name in OWN.iter().filter(|name| there(name)) {
        let file = path.join(name);
        let done = match *name {
            "session" => closed_session(&file),
            "s" => wipe::wipe(&file),
            _ => wipe::remove(&file).map(|()| 0),
        };
        match done {
            Ok(n) => wiped += n,
            Err(mut fault) => lines.append(&mut fault.lines),
        }
    }
    lock.into_iter().for_each(Lock::remove);
    match lines.is_empty() {
        true => Ok(wiped),
        false => Err(Fault {
            status: tell::FILE,
            lines,
        }),
    }
}

/// 130 zeros are an idle session; of another length it is none, and goes.
fn closed_session(path: &Path) -> Result<u64, Fault> {
    let n = session::closed(path)?;
    if n != SESSION as u64 {
        wipe::remove(path)?;
    }
    Ok(n)
}

fn made(path: &Path) -> Result<(), Fault> {
    let made = DirBuilder::new().mode(0o700).create(path);
    made.and_then(|()| outputs::settle(files::folder(path)))
        .map_err(|error| tell::file(path, reason(&error)))
}

fn is_folder(path: &Path) -> Result<(), Fault> {
    let found = path
        .metadata()
        .map_err(|error| tell::file(path, reason(&error)))?;
    match found.is_dir() {
        true => Ok(()),
        false => Err(tell::file(path, "is no folder, and a link is one")),
    }
}

/// A folder that nobody else may enter.
fn closed(path: &Path) -> Result<(), Fault> {
    is_folder(path)?;
    let found = path
        .metadata()
        .map_err(|error| tell::file(path, reason(&error)))?;
    match found.mode() & 0o777 {
        mode if mode & 0o077 != 0 => {
            let line = format!("is a folder that others may enter (mode {mode:o}): chmod 700");
            Err(tell::file(path, line))
        }
        _ => Ok(()),
    }
}

/// A session of another length is in no stage.
fn session_in(folder: &Path, input: &Input) -> Result<Wiped<u8>, Fault> {
    let path = folder.join("session");
    match path.symlink_metadata() {
        Err(error) if error.kind() == ErrorKind::NotFound => Ok(Wiped::zeros(SESSION)),
        _ => read(&path, input),
    }
}

fn read(path: &Path, input: &Input) -> Result<Wiped<u8>, Fault> {
    match files::read(input, &Place::File(path.to_path_buf()))?.data {
        Data::Bytes(bytes) => Ok(bytes),
        _ => unreachable!("they are bytes"),
    }
}

/// A path as a word of the shell.
pub fn quoted(path: impl AsRef<OsStr>) -> String {
    let text = shown(path);
    let plain = |c: char| c.is_ascii_alphanumeric() || "/._-+=:@%,".contains(c);
    match !text.is_empty() && text.chars().all(plain) {
        true => text,
        false => format!("'{}'", text.replace('\'', "'\\''")),
    }
}
