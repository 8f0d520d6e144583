//! A lock by a file beside what it guards, since that file itself is replaced.

use crate::files::same_file;
use crate::tell::{self, reason, Fault};
use std::fs::{self, File, OpenOptions, TryLockError};
use std::io;
use std::os::unix::fs::OpenOptionsExt;
use std::path::{Path, PathBuf};
use std::thread::sleep;
use std::time::{Duration, Instant};

/// How long a second command waits for the first.
const PATIENCE: Duration = Duration::from_secs(1);
const PAUSE: Duration = Duration::from_millis(20);

/// Held until it is dropped; the system lets go of it when the program is killed.
pub struct Lock {
    path: PathBuf,
    _file: File,
}

impl Lock {
    /// Waits no longer than a second.
    pub fn take(path: &Path) -> Result<Lock, Fault> {
        let wrong = |error: &io::Error| tell::file(path, reason(error));
        let until = Instant::now() + PATIENCE;
        loop {
            let file = open(path).map_err(|error| wrong(&error))?;
            match file.try_lock() {
                // another name by now: who held it has removed it
                Ok(()) if !same_file(path, &file) => continue,
                Ok(()) => {
                    let path = path.to_path_buf();
                    return Ok(Lock { path, _file: file });
                }
                Err(TryLockError::WouldBlock) if Instant::now() < until => sleep(PAUSE),
                Err(TryLockError::WouldBlock) => {
                    return Err(tell::file(path, "busy: another command is at work"));
                }
                Err(TryLockError::Error(error)) => return Err(wrong(&error)),
            }
        }
    }

    /// Takes the lock, or none where the drive has no room for it: for work that
    /// has to go on.
    pub fn take_if_room(path: &Path) -> Result<Option<Lock>, Fault> {
        match open(path) {
            Err(error) if error.kind() == io::ErrorKind::StorageFull => Ok(None),
            _ => Lock::take(path).map(Some),
        }
    }

    /// Lets go of it and leaves no file. Who waits for it finds that it is gone.
    pub fn remove(self) {
        let _ = fs::remove_file(&self.path);
    }
}

fn open(path: &Path) -> io::Result<File> {
    OpenOptions::new()
        .write(true)
        .create(true)
        .truncate(false)
        .mode(0o600)
        .custom_flags(crate::files::PLAIN)
        .open(path)
}

#[cfg(test)]
mod tests {
    use super::*;

    #[test]
    fn one_at_a_time() {
        let path = std::env::temp_dir().join(format!("wimmostry-lock-{}", std::process::id()));
        let Ok(first) = Lock::take(&path) else {
            panic!("a lock that nobody holds")
        };
        let begun = Instant::now();
        let Err(fault) = Lock::take(&path) else {
            panic!("a lock that is held")
        };
        assert!(begun.elapsed() >= PATIENCE && begun.elapsed() < 3 * PATIENCE);
        assert_eq!(fault.status, tell::FILE);
        assert!(fault.lines[0].contains(": busy"));
        // who holds it removes it, while another has it open: that one takes a new file
        let waiting = std::thread::spawn({
            let path = path.clone();
            move || Lock::take(&path).is_ok_and(|lock| same_file(&path, &lock._file))
        });
        sleep(Duration::from_millis(100));
        first.remove();
        assert!(waiting.join().unwrap());
        fs::remove_file(path).unwrap();
    }
}
