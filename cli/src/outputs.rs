//! Answers put into files: all of a call's, or none.
//!
//! Each is written to a fresh file beside its place, which nobody else has
//! open, and brought to the disk; then all are renamed into their places. So a
//! file is never seen half written, a handle that was opened before reads the
//! old bytes until they are overwritten, and the mode and the owner are those of
//! the fresh file.

use crate::data::Wiped;
use crate::files::{folder, standard, Way};
use crate::fresh::{self, beside, unwritten, Fresh, Mode};
use crate::options;
use crate::signals;
use crate::tell::{self, reason, Fault};
use crate::wipe;
use crate::words::Place;
use std::collections::BTreeSet;
use std::fs::{self, File, OpenOptions};
use std::io::{self, ErrorKind, Write};
use std::os::unix::fs::OpenOptionsExt;
use std::path::{Path, PathBuf};

pub struct Answer<'a> {
    pub place: &'a Place,
    pub bytes: Wiped<u8>,
    pub mode: Mode,
    /// Whether it is a file that is kept, as a session, and so replaced without
    /// being asked.
    pub kept: bool,
}

/// A file that is replaced: another name for it, to put it back by where the
/// system allows one, and a handle, to overwrite it in the end.
struct Old {
    name: Option<PathBuf>,
    file: Option<File>,
}

impl Old {
    fn of(place: &Path) -> Result<Old, Fault> {
        let opened = OpenOptions::new()
            .write(true)
            .custom_flags(crate::files::PLAIN)
            .open(place);
        let file = match opened {
            Ok(file) => file,
            Err(_) => {
                return Ok(Old {
                    name: None,
                    file: None,
                })
            }
        };
        let _ = file.try_lock();
        let name = beside(place)?;
        let linked = fs::hard_link(place, &name).is_ok();
        Ok(Old {
            name: linked.then_some(name),
            file: Some(file),
        })
    }

    /// Puts it back.
    fn back(&self, place: &Path) -> bool {
        self.name
            .as_ref()
            .is_some_and(|name| fs::rename(name, place).is_ok())
    }

    /// Overwrites it, where no other name than ours leads to it, and removes it.
    fn gone(self) {
        if let Some(file) = &self.file {
            let names = std::os::unix::fs::MetadataExt::nlink;
            if file.metadata().is_ok_and(|found| names(&found) <= 1) {
                let _ = wipe::zeros(file);
            }
        }
        if let Some(name) = &self.name {
            let _ = fs::remove_file(name);
        }
    }
}

/// Puts all answers into their places.
pub fn put(answers: &[Answer]) -> Result<(), Fault> {
    signals::guard();
    let done = put_all(answers);
    signals::free();
    done
}

fn put_all(answers: &[Answer]) -> Result<(), Fault> {
    let files = || answers.iter().filter_map(|x| Some((x, x.place.path()?)));
    let folders: BTreeSet<&Path> = files().map(|(_, path)| folder(path)).collect();
    folders.into_iter().for_each(fresh::sweep);
    let mut fresh = vec![];
    for (answer, path) in files() {
        let replace = answer.kept || options::replace();
        fresh.push((
            path,
            Fresh::written(path, &answer.bytes, answer.mode)?,
            replace,
        ));
    }
    for answer in answers {
        if *answer.place == Place::Standard {
            let sent = standard(Way::Out).and_then(|mut out| out.write_all(&answer.bytes));
            sent.map_err(|error| tell::file("standard output", reason(&error)))?;
        }
    }
    signals::hold();
    let mut placed = Placed(vec![]);
    for (path, fresh, replace) in fresh {
        placed.rename(path, fresh, replace)?;
    }
    for (path, ..) in &placed.0 {
        settle(folder(path)).map_err(|error| unwritten(path, &error))?;
    }
    placed.stay();
    Ok(())
}

/// What stands in its place by now, and what stood there before. Unless it stays,
/// the answers are taken back when it is dropped.
struct Placed<'a>(Vec<(&'a Path, Fresh, Old)>);

impl<'a> Placed<'a> {
    fn rename(&mut self, place: &'a Path, mut fresh: Fresh, replace: bool) -> Result<(), Fault> {
        let old = match replace {
            true => Old::of(place)?,
            false => Old {
                name: None,
                file: None,
            },
        };
        let done = fresh.place(place, replace);
        if let (Err(_), Some(name)) = (&done, &old.name) {
            let _ = fs::remove_file(name);
        }
        done.map_err(|error| unwritten(place, &error))?;
        self.0.push((place, fresh, old));
        Ok(())
    }

    fn stay(&mut self) {
        for (_, fresh, old) in self.0.drain(..) {
            fresh.leave();
            old.gone();
        }
    }
}

impl Drop for Placed<'_> {
    fn drop(&mut self) {
        for (place, fresh, old) in self.0.drain(..) {
            match old.back(place) {
                // the fresh one has no name any more
                true => fresh.lost(),
                false => drop(fresh),
            }
        }
    }
}

/// After a refusal no output is there: with `--replace` what stood there is
/// overwritten and removed.
pub fn clear(places: &[Place]) -> Result<(), Fault> {
    for path in places.iter().filter_map(Place::path) {
        if options::replace() && path.symlink_metadata().is_ok() {
            wipe::remove(path)?;
        }
    }
    Ok(())
}

/// Brings the names in a folder to the disk, where the system can do that.
pub fn settle(folder: &Path) -> io::Result<()> {
    let Ok(folder) = File::open(folder) else {
        return Ok(());
    };
    match folder.sync_all() {
        Err(error) if error.kind() == ErrorKind::InvalidInput => Ok(()),
        Err(error) if error.kind() == ErrorKind::Unsupported => Ok(()),
        done => done,
    }
}

#[cfg(test)]
mod tests {
    use super::*;
    use std::os::unix::fs::PermissionsExt;

    /// An empty folder of its own for each test.
    fn room(name: &str) -> PathBuf {
        let room = std::env::temp_dir().join(format!("wimmostry-{name}-{}", std::process::id()));
        let _ = fs::remove_dir_all(&room);
        fs::create_dir(&room).unwrap();
        room
    }

    fn answer<'a>(place: &'a Place, bytes: &[u8], kept: bool) -> Answer<'a> {
        Answer {
            place,
            bytes: Wiped::collect(bytes.iter().copied()),
            mode: Mode::Closed,
            kept,
        }
    }

    fn names(room: &Path) -> Vec<std::ffi::OsString> {
        let mut left: Vec<_> = fs::read_dir(room)
            .unwrap()
            .map(|x| x.unwrap().file_name())
            .collect();
        left.sort();
        left
    }

    #[test]
    fn a_kept_file_is_closed_to_others_and_the_old_one_overwritten() {
        let room = room("kept");
        let session = Place::File(room.join("session"));
        fs::write(room.join("session"), "old").unwrap();
        fs::set_permissions(room.join("session"), fs::Permissions::from_mode(0o666)).unwrap();
        let mut handle = File::open(room.join("session")).unwrap();
        assert!(put(&[answer(&session, b"new", true)]).is_ok());
        assert_eq!(fs::read(room.join("session")).unwrap(), b"new");
        let mode = fs::metadata(room.join("session"))
            .unwrap()
            .permissions()
            .mode();
        assert_eq!(mode & 0o777, 0o600);
        let mut old = vec![];
        io::Read::read_to_end(&mut handle, &mut old).unwrap();
        assert_eq!(old, [0; 3]);
        assert_eq!(names(&room), ["session"]);
        // what is no kept file is not replaced
        let fault = put(&[answer(&session, b"newer", false)]).unwrap_err();
        assert_eq!(fault.status, tell::FILE);
        assert_eq!(fs::read(room.join("session")).unwrap(), b"new");
        assert_eq!(names(&room), ["session"]);
        fs::remove_dir_all(room).unwrap();
    }

    /// A folder cannot be renamed over: what was placed before is taken back.
    #[test]
    fn all_or_none() {
        let room = room("none");
        let (old, new) = (Place::File(room.join("old")), Place::File(room.join("new")));
        let wrong = Place::File(room.join("folder"));
        fs::write(room.join("old"), "as it was").unwrap();
        fs::create_dir(room.join("folder")).unwrap();
        let answers = [
            answer(&old, b"message", true),
            answer(&new, b"more", false),
            answer(&wrong, b"key", true),
        ];
        let fault = put(&answers).unwrap_err();
        assert_eq!(fault.status, tell::FILE);
        assert!(fault.lines[0].contains("folder: not written: "));
        assert_eq!(fs::read(room.join("old")).unwrap(), b"as it was");
        assert_eq!(names(&room), ["folder", "old"]);
        fs::remove_dir_all(room).unwrap();
    }
}
