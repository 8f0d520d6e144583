//! A session in a file: the calls on it, and what closes and shows it.

use crate::calls::{self, Answer, Refused, IDLE, SESSION};
use crate::data::{Data, Kind};
use crate::escape::shown;
use crate::files::{self, Lent, Named};
use crate::fresh::{self, Mode};
use crate::lock::Lock;
use crate::outputs;
use crate::run;
use crate::table::{Input, Length, OnSession};
use crate::tell::{self, Done, Fault, Voice};
use crate::wipe;
use crate::words::{self, Place};
use std::ffi::{OsStr, OsString};
use std::fs::{File, Permissions};
use std::os::unix::fs::PermissionsExt;
use std::path::{Path, PathBuf};

pub const WORDS: &str = "\
\x20 FILE     in and out, mode 600: the session
           bytes: 130: its stage, its scheme and the raw key, or zeros where it has none
";

pub const OFFER_MORE: &str = "\
As offer without a session, and then the session is offered with this scheme, which is told. A FILE
that is not there is an idle session, and is made. Where the session is not idle the call is refused
by 10, and its line names the stage. A refused call leaves FILE as it is; all other words are those
of offer, and FILE is written with the message or not at all. S is not in the session: keep it for
finish, and wipe it then or when the session is closed.";

pub const REPLY_MORE: &str = "\
As reply without a session, and then the session holds the key too and is keyed with this scheme,
which is told. A FILE that is not there is an idle session, and is made. Where the session is not
idle the call is refused by 10, and its line names the stage. A refused call leaves FILE as it is;
all other words are those of reply, and FILE is written with them or not at all.";

pub const FINISH_MORE: &str = "\
As finish without a session, and then the session holds the key too and is keyed with this scheme,
which is told. Where the session has not offered, or with another scheme, the call is refused by 10,
and its line names the stage. A refused call leaves FILE as it is, and may be tried again with the
same S; all other words are those of finish, and FILE is written with them or not at all.";

pub const KEY_MORE: &str = "\
What reply or finish gave, once more, as where its files were lost or could not be said. Where the
session is not keyed it is refused by 10, and its line names the stage. FILE stays as it is.";

pub const CLOSE_MORE: &str = "\
Whatever its stage and whatever its bytes are, the session is then idle: its bytes are overwritten
in place as wipe does it, with the same limits, and left as 130 zeros, which takes no room on the
drive. FILE has to be there and to have 130 bytes and no other name. To remove it, wipe it.";

pub const SHOW_MORE: &str = "\
Says stage=idle, or stage=offered or stage=keyed and scheme=N behind it. Of bytes that no call
leaves it says what a call would: refusal=10 and stage=none. The key is never shown.";

const FILE: Input = Input {
    word: "FILE",
    kind: Kind::Bytes,
    length: Length::Fixed(SESSION),
    packed: None,
    secret: true,
    what: "the session",
};

/// Looked at or closed, whoever may read it.
const ANY_MODE: Input = Input {
    secret: false,
    ..FILE
};

/// A session's file, for a call.
pub struct Kept {
    on: &'static OnSession,
    place: Place,
    lock: Place,
    held: Lent,
}

pub fn run(on: &'static OnSession, file: &OsStr, given: &[OsString]) -> Done {
    let path = path(file)?;
    let kept = Kept {
        on,
        lock: Place::File(lock_of(&path)),
        place: Place::File(path),
        held: Lent::zeros(FILE.kind, SESSION),
    };
    run::run(&on.plain, Some(kept), given)
}

/// A session is read and written, so that it is a file with a name.
fn path(file: &OsStr) -> Result<PathBuf, Fault> {
    match words::output(FILE.word, file)? {
        Place::File(path) => Ok(path),
        _ => Err(tell::words(format!(
            "session takes the name of a file, not '{}'",
            shown(file)
        ))),
    }
}

fn lock_of(path: &Path) -> PathBuf {
    let mut name = path.as_os_str().to_os_string();
    name.push(".lock");
    PathBuf::from(name)
}

impl Kept {
    /// The session and its lock, as outputs.
    pub fn named(&self) -> [Named<'_>; 2] {
        [("FILE", &self.place), ("FILE.lock", &self.lock)].map(|(word, place)| Named {
            word,
            place,
            secret: true,
        })
    }

    pub fn replaceable(&self) -> Result<(), Fault> {
        files::replaceable(&self.place)
    }

    /// Held while the command works on the session. There is none of a file that is
    /// missing, where no link begins.
    pub fn lock(&self) -> Result<Lock, Fault> {
        if let (Some(path), true) = (self.place.path(), self.on.allowed != IDLE) {
            path.metadata()
                .map_err(|error| tell::file(path, tell::reason(&error)))?;
        }
        Lock::take(self.lock.path().unwrap_or(Path::new("")))
    }

    /// Reads the file. One that is not there is an idle session, where a link
    /// begins.
    pub fn read(&mut self) -> Result<(), Fault> {
        let missing = self.place.path().is_some_and(|path| !path.exists());
        if !(missing && self.on.allowed == IDLE) {
            self.held = files::read(&FILE, &self.place)?;
        }
        Ok(())
    }

    pub fn call(
        &mut self,
        asked: u32,
        given: &[&Data],
        out: &mut [Data],
    ) -> Result<Answer, Refused> {
        (self.on.call)(self.held.data.bytes_mut(), asked, given, out)
    }

    /// What is written, where the call moves the session.
    pub fn answer(&self) -> Option<outputs::Answer<'_>> {
        self.on.moves.then(|| outputs::Answer {
            place: &self.place,
            bytes: self.held.data.to_file(),
            mode: Mode::Closed,
            kept: true,
        })
    }

    /// The lines of the stage.
    pub fn told(&self) -> String {
        told(self.held.data.bytes()).unwrap_or_default()
    }

    /// Refusal 10: which stage there is, and which is expected, or with which
    /// scheme.
    pub fn refusal(&self, asked: u32) -> Fault {
        let expected = self.on.allowed;
        match calls::stage(self.held.data.bytes()) {
            None => no_stage(&self.held),
            Some((stage, Some(scheme))) if stage == expected => {
                out_of_stage(format!("stage={stage} scheme={asked} expected={scheme}"))
            }
            Some((stage, _)) => out_of_stage(format!("stage={stage} expected={expected}")),
        }
    }
}

pub fn out_of_stage(detail: String) -> Fault {
    tell::refused(calls::OUT_OF_STAGE, 0, Some(detail))
}

pub fn told(session: &[u8]) -> Option<String> {
    let (stage, scheme) = calls::stage(session)?;
    let scheme = scheme.map(|number| format!("scheme={number}\n"));
    Some(format!("stage={stage}\n{}", scheme.unwrap_or_default()))
}

/// Refusal 10 where the file is in no stage.
fn no_stage(held: &Lent) -> Fault {
    out_of_stage(match held.data.len() {
        SESSION => "stage=none".to_string(),
        _ => format!("stage=none length={} expected={SESSION}", held.there()),
    })
}

pub fn show(file: &OsStr) -> Done {
    let held = files::read(&ANY_MODE, &Place::File(path(file)?))?;
    let lines = told(held.data.bytes()).ok_or_else(|| no_stage(&held))?;
    tell::say(Voice::Output, &lines)?;
    Ok(tell::DONE)
}

pub fn close(file: &OsStr) -> Done {
    let path = path(file)?;
    files::read(&ANY_MODE, &Place::File(path.clone()))?;
    let lock = Lock::take_if_room(&lock_of(&path))?;
    fresh::sweep(files::folder(&path));
    let held = files::read(&ANY_MODE, &Place::File(path.clone()))?;
    if held.data.len() != SESSION {
        let line = format!(
            "is no session: it has {} bytes, not {SESSION}",
            held.there()
        );
        return Err(tell::file(&path, line));
    }
    closed(&path)?;
    lock.into_iter().for_each(Lock::remove);
    tell::say(Voice::Output, &format!("stage={IDLE}\n"))?;
    Ok(tell::DONE)
}

/// Overwritten in place, with zeros last, which are an idle session; closed to
/// others from then on.
pub fn closed(path: &Path) -> Result<u64, Fault> {
    let file = wipe::open(path)?;
    let n = wipe::overwrite(path, &file)?;
    let mode = |file: &File| file.set_permissions(Permissions::from_mode(0o600));
    mode(&file).map_err(|error| tell::file(path, tell::reason(&error)))?;
    Ok(n)
}
