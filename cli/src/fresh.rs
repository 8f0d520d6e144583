//! Temporary files: each beside its place, under a name that nobody can guess, and
//! locked for as long as its owner works. One that is not placed is overwritten and
//! removed; one that a killed run has left is found by the next.

use crate::escape::shown;
use crate::files::{folder, same_file, PLAIN};
use crate::random;
use crate::signals::{self, Listed};
use crate::tell::{self, reason, Fault};
use crate::wipe;
use std::ffi::OsStr;
use std::fs::{self, File, OpenOptions, TryLockError};
use std::io::{self, ErrorKind, Write};
use std::os::unix::ffi::OsStrExt;
use std::os::unix::fs::{MetadataExt, OpenOptionsExt, PermissionsExt};
use std::path::{Path, PathBuf};

/// Before the random digits in the name of a temporary file, and how many digits.
const MARK: &[u8] = b".wimmostry-";
const DIGITS: usize = 16;

/// A name beside another.
pub fn beside(place: &Path) -> Result<PathBuf, Fault> {
    let random = random::bytes(DIGITS / 2)?;
    let mut name = MARK.to_vec();
    name.extend(
        random
            .iter()
            .flat_map(|byte| format!("{byte:02x}").into_bytes()),
    );
    Ok(folder(place).join(OsStr::from_bytes(&name)))
}

/// Who may read a file.
#[derive(Clone, Copy, PartialEq)]
pub enum Mode {
    /// Its owner alone.
    Closed,
    /// As far as the umask goes.
    Open,
    /// Everyone who may enter the folder.
    Shown,
}

/// A fresh file.
pub struct Fresh {
    path: PathBuf,
    file: File,
    listed: Option<Listed>,
}

impl Fresh {
    /// A fresh file with these bytes in it, on the disk.
    pub fn written(place: &Path, bytes: &[u8], mode: Mode) -> Result<Fresh, Fault> {
        let mut fresh = Fresh::made(place, mode)?;
        let mut put = || -> io::Result<()> {
            if mode == Mode::Shown {
                fresh
                    .file
                    .set_permissions(fs::Permissions::from_mode(0o644))?;
            }
            // some drives, as sticks with FAT, keep no modes
            if mode == Mode::Closed && fresh.file.metadata()?.mode() & 0o077 != 0 {
                return Err(io::Error::other("the drive keeps no file closed to others"));
            }
            fresh.file.write_all(bytes)?;
            fresh.file.sync_all()
        };
        put().map_err(|error| unwritten(place, &error))?;
        Ok(fresh)
    }

    /// A new file that is locked. Who looks for files that were left may have locked
    /// it first: then another one is made.
    fn made(place: &Path, mode: Mode) -> Result<Fresh, Fault> {
        loop {
            let path = beside(place)?;
            let file = OpenOptions::new()
                .write(true)
                .create_new(true)
                .mode(if mode == Mode::Closed { 0o600 } else { 0o666 })
                .open(&path)
                .map_err(|error| unwritten(place, &error))?;
            let free = !matches!(file.try_lock(), Err(TryLockError::WouldBlock));
            if free && same_file(&path, &file) {
                let listed = Some(signals::list(&path, &file));
                return Ok(Fresh { path, file, listed });
            }
        }
    }

    /// Renames it into its place; whether a file that is there may be replaced.
    pub fn place(&mut self, place: &Path, replace: bool) -> io::Result<()> {
        match replace {
            true => fs::rename(&self.path, place)?,
            false => rename_new(&self.path, place)?,
        }
        self.listed = None;
        self.path = place.to_path_buf();
        Ok(())
    }

    /// It stays where it was placed.
    pub fn leave(mut self) {
        self.path = PathBuf::new();
        self.listed = None;
    }

    /// Another file has taken its place: it has no name any more.
    pub fn lost(self) {
        let _ = wipe::zeros(&self.file);
        self.leave();
    }
}

impl Drop for Fresh {
    fn drop(&mut self) {
        if !self.path.as_os_str().is_empty() {
            let _ = wipe::zeros(&self.file);
            let _ = fs::remove_file(&self.path);
        }
    }
}

pub fn unwritten(place: &Path, error: &io::Error) -> Fault {
    tell::file(place, format!("not written: {}", reason(error)))
}

mod raw {
    use std::ffi::{c_char, c_int, c_uint};

    extern "C" {
        pub fn renameat2(
            from: c_int,
            path: *const c_char,
            to: c_int,
            new: *const c_char,
            flags: c_uint,
        ) -> c_int;
    }
    /// Paths go from the folder that the program works in.
    pub const HERE: c_int = -100;
    pub const NEW_ONLY: c_uint = 1;
}

/// Renames to a name that nothing has, in one step; where the drive has no such
/// step, in two.
fn rename_new(from: &Path, to: &Path) -> io::Result<()> {
    let text = |path: &Path| std::ffi::CString::new(path.as_os_str().as_bytes());
    let (old, new) = (text(from)?, text(to)?);
    // SAFETY: both are C strings that live until the call is over.
    let done = unsafe {
        raw::renameat2(
            raw::HERE,
            old.as_ptr(),
            raw::HERE,
            new.as_ptr(),
            raw::NEW_ONLY,
        )
    };
    match io::Error::last_os_error() {
        _ if done == 0 => Ok(()),
        error
            if matches!(
                error.kind(),
                ErrorKind::InvalidInput | ErrorKind::Unsupported
            ) =>
        {
            match to.symlink_metadata() {
                Ok(_) => Err(io::Error::from(ErrorKind::AlreadyExists)),
                Err(_) => fs::rename(from, to),
            }
        }
        error => Err(error),
    }
}

// ---- what a killed run left

/// Looks for temporary files in a folder that nobody holds: each is overwritten,
/// removed and told.
pub fn sweep(folder: &Path) {
    let Ok(entries) = fs::read_dir(folder) else {
        return;
    };
    for entry in entries.flatten() {
        if temporary(&entry.file_name()) {
            let path = entry.path();
            if let Some(wiped) = swept(&path) {
                let done = match wiped {
                    Ok(()) => "wiped".to_string(),
                    Err(error) => format!("not wiped: {}", reason(&error)),
                };
                tell::note(&format!(
                    "{}: left by a run that was killed: {done}",
                    shown(&path)
                ));
            }
        }
    }
}

fn temporary(name: &OsStr) -> bool {
    let digits = name.as_bytes().strip_prefix(MARK);
    digits.is_some_and(|all| all.len() == DIGITS && all.iter().all(u8::is_ascii_hexdigit))
}

/// Nothing where it is held, or is in its place by now.
fn swept(path: &Path) -> Option<io::Result<()>> {
    let file = OpenOptions::new()
        .write(true)
        .custom_flags(PLAIN)
        .open(path)
        .ok()?;
    file.try_lock().ok()?;
    let found = file.metadata().ok()?;
    if !found.is_file() || !same_file(path, &file) {
        return None;
    }
    // with another name it is what stands in its place, or was to be put back there
    let wiped = match found.nlink() {
        1 => wipe::zeros(&file).map(|_| ()),
        _ => Ok(()),
    };
    Some(wiped.and_then(|()| fs::remove_file(path)))
}

#[cfg(test)]
mod tests {
    use super::*;

    #[test]
    fn only_what_nobody_holds_is_swept() {
        let room = std::env::temp_dir().join(format!("wimmostry-sweep-{}", std::process::id()));
        let _ = fs::remove_dir_all(&room);
        fs::create_dir(&room).unwrap();
        let place = room.join("key");
        let Ok(mut held) = Fresh::written(&place, b"key", Mode::Closed) else {
            panic!("a fresh file")
        };
        let left = room.join(".wimmostry-0123456789abcdef");
        let other = room.join(".wimmostry-0123456789abcdeg");
        fs::write(&left, "secret").unwrap();
        fs::write(&other, "not ours").unwrap();
        let mut handle = File::open(&left).unwrap();
        sweep(&room);
        let mut bytes = vec![];
        io::Read::read_to_end(&mut handle, &mut bytes).unwrap();
        assert_eq!(bytes, [0; 6]);
        assert!(!left.exists() && other.exists() && held.path.exists());
        // in its place it is not looked for, and a name beside it is taken away alone
        held.place(&place, false).unwrap();
        held.leave();
        fs::hard_link(&place, &left).unwrap();
        sweep(&room);
        assert!(!left.exists());
        assert_eq!(fs::read(&place).unwrap(), b"key");
        fs::remove_dir_all(room).unwrap();
    }

    #[test]
    fn what_is_not_placed_is_overwritten() {
        let place = std::env::temp_dir().join(format!("wimmostry-over-{}", std::process::id()));
        let Ok(fresh) = Fresh::written(&place, b"key", Mode::Closed) else {
            panic!("a fresh file")
        };
        let mut handle = File::open(&fresh.path).unwrap();
        let path = fresh.path.clone();
        drop(fresh);
        let mut bytes = vec![];
        io::Read::read_to_end(&mut handle, &mut bytes).unwrap();
        assert_eq!((bytes, path.exists()), (vec![0; 3], false));
    }

    #[test]
    fn what_came_meanwhile_is_not_replaced() {
        let room = std::env::temp_dir().join(format!("wimmostry-came-{}", std::process::id()));
        let _ = fs::remove_dir_all(&room);
        fs::create_dir(&room).unwrap();
        let place = room.join("key");
        let Ok(mut fresh) = Fresh::written(&place, b"new", Mode::Closed) else {
            panic!("a fresh file")
        };
        fs::write(&place, "old").unwrap();
        let error = fresh.place(&place, false).unwrap_err();
        assert_eq!(error.kind(), ErrorKind::AlreadyExists);
        drop(fresh);
        assert_eq!(fs::read(&place).unwrap(), b"old");
        assert_eq!(fs::read_dir(&room).unwrap().count(), 1);
        fs::remove_dir_all(room).unwrap();
    }
}
