//! A file overwritten and removed.

use crate::data::Wiped;
use crate::escape::shown;
use crate::files::{self, PLAIN};
use crate::fresh;
use crate::outputs;
use crate::random;
use crate::tell::{self, reason, Done, Fault, Voice};
use crate::words::{self, Place};
use std::ffi::OsString;
use std::fs::{self, File, Metadata, OpenOptions};
use std::io::{self, Seek, SeekFrom, Write};
use std::os::unix::fs::{MetadataExt, OpenOptionsExt};
use std::path::Path;

pub const WORDS: &str = "  FILE     a plain file with no other name\n";

pub const MORE: &str = "\
The file is overwritten with random bytes, then with zeros, each brought to the disk, and removed.
Where it cannot be removed, as in a folder that nobody may write to, a line says that it was
overwritten. That is all a program can do. It is no promise on flash drives (sticks, cards, SSDs),
which write elsewhere and keep the old cells, nor on file systems with journals or snapshots, nor
for copies. Keep secrets on a drive that is encrypted, or in memory (a tmpfs, such as /dev/shm).";

const NOTE: &str = "\
note: flash drives, journals, snapshots and copies may still hold the bytes; see 'help wipe'\n";

/// How much is overwritten at a time.
const PIECE: usize = 1 << 16;

pub fn run(given: &[OsString]) -> Done {
    let place = words::output("FILE", &given[0])?;
    let Place::File(path) = place else {
        let word = shown(&given[0]);
        let line = format!("wipe takes the name of a file, not '{word}'");
        return Err(tell::words(line));
    };
    fresh::sweep(files::folder(&path));
    let n = wipe(&path)?;
    tell::say(Voice::Output, &format!("wiped={n}\n{NOTE}"))?;
    Ok(tell::DONE)
}

/// Gives how many bytes there were.
pub fn wipe(path: &Path) -> Result<u64, Fault> {
    let file = open(path)?;
    let n = overwrite(path, &file)?;
    unlink(path)?;
    Ok(n)
}

/// Takes a file away whatever it is, and wipes it first where it has one name: one
/// that has other names keeps what it holds under them.
pub fn remove(path: &Path) -> Result<(), Fault> {
    let found = path
        .symlink_metadata()
        .map_err(|error| unwiped(path, &error))?;
    match found.is_file() && found.nlink() == 1 {
        true => wipe(path).map(|_| ()),
        false => unlink(path),
    }
}

fn unlink(path: &Path) -> Result<(), Fault> {
    let gone = fs::remove_file(path).and_then(|()| outputs::settle(files::folder(path)));
    gone.map_err(|error| {
        let line = format!("overwritten, but not removed: {}", reason(&error));
        tell::file(path, line)
    })
}

fn unwiped(path: &Path, error: &io::Error) -> Fault {
    tell::file(path, format!("not wiped: {}", reason(error)))
}

/// A plain file with no other name, opened to be overwritten.
pub fn open(path: &Path) -> Result<File, Fault> {
    let wrong = |error: io::Error| unwiped(path, &error);
    let named = path.symlink_metadata().map_err(wrong)?;
    plain(path, &named)?;
    let file = OpenOptions::new()
        .write(true)
        .custom_flags(PLAIN)
        .open(path)
        .map_err(wrong)?;
    // what was opened is what was looked at
    plain(path, &file.metadata().map_err(wrong)?)?;
    if !files::same_file(path, &file) {
        return Err(tell::file(path, "not wiped: it was changed meanwhile"));
    }
    Ok(file)
}

/// Overwrites what an open file holds with random bytes and then with zeros,
/// whatever its name is by now; gives how many bytes there were.
pub fn overwrite(path: &Path, file: &File) -> Result<u64, Fault> {
    let mut random = Wiped::zeros(PIECE);
    random::fill(&mut random)?;
    let both = over(file, &random).and_then(|_| zeros(file));
    both.map_err(|error| unwiped(path, &error))
}

/// Zeros over what an open file holds, on the disk.
pub fn zeros(file: &File) -> io::Result<u64> {
    over(file, &Wiped::zeros(PIECE))
}

/// A piece again and again over what an open file holds, on the disk.
fn over(mut file: &File, piece: &[u8]) -> io::Result<u64> {
    let n = file.seek(SeekFrom::End(0))?;
    file.seek(SeekFrom::Start(0))?;
    let mut left = n;
    while left > 0 {
        let now = piece.len().min(usize::try_from(left).unwrap_or(PIECE));
        file.write_all(&piece[..now])?;
        left -= now as u64;
    }
    file.sync_all()?;
    Ok(n)
}

fn plain(path: &Path, found: &Metadata) -> Result<(), Fault> {
    if let Some(wrong) = files::kind(found.file_type()) {
        return Err(tell::file(path, format!("not wiped: it is {wrong}")));
    }
    match found.nlink() {
        1 => Ok(()),
        n => Err(tell::file(path, format!("not wiped: it has {n} names"))),
    }
}
