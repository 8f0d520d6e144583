//! The files that the words name: that no two are one, that each is a plain
//! file, and what the inputs hold.

use crate::bcns;
use crate::data::{Data, Kind, Wiped};
use crate::escape::shown;
use crate::options;
use crate::rows::Rows;
use crate::table::Input;
use crate::tell::{self, reason, Fault};
use crate::words::Place;
use std::ffi::{OsStr, OsString};
use std::fs::{File, FileType, Metadata, OpenOptions};
use std::io::{self, ErrorKind, IsTerminal, Read};
use std::os::fd::AsFd;
use std::os::unix::fs::{FileTypeExt, MetadataExt, OpenOptionsExt};
use std::path::Path;

/// Opening a pipe that came in the place of a file must not wait for its other
/// end. The number is the same on all Linux machines that Rust knows but MIPS
/// and SPARC.
#[cfg(any(target_os = "linux", target_os = "android"))]
pub const NO_WAIT: i32 = 0o4000;
#[cfg(not(any(target_os = "linux", target_os = "android")))]
pub const NO_WAIT: i32 = 4;

/// A symbolic link that came in the place of a file is not followed. Arm has a
/// number of its own.
#[cfg(any(target_arch = "aarch64", target_arch = "arm"))]
const NO_FOLLOW: i32 = 0o100000;
#[cfg(not(any(target_arch = "aarch64", target_arch = "arm")))]
const NO_FOLLOW: i32 = 0o400000;

/// Both, for a file that is written to.
pub const PLAIN: i32 = NO_WAIT | NO_FOLLOW;

/// A named word: `KEY`, where it points, and whether nobody else may read it.
#[derive(Clone, Copy)]
pub struct Named<'a> {
    pub word: &'a str,
    pub place: &'a Place,
    pub secret: bool,
}

// ---- before anything is read

/// That no output is another output or an input, that a secret is no other input,
/// that `-` stands once each way and that no answer goes to a terminal.
pub fn no_clash(inputs: &[Named], outputs: &[Named]) -> Result<(), Fault> {
    for (way, names) in [("input", inputs), ("output", outputs)] {
        let mut twice = names.iter().filter(|x| *x.place == Place::Standard);
        if let (Some(one), Some(other)) = (twice.next(), twice.next()) {
            let (one, other) = (one.word, other.word);
            return Err(tell::words(format!(
                "{one} and {other} are both -, which is one {way} at most"
            )));
        }
    }
    let known = |names: &[Named], way| -> Vec<Option<Identity>> {
        names.iter().map(|x| identity(x.place, way)).collect()
    };
    let (from, to) = (known(inputs, Way::In), known(outputs, Way::Out));
    for (i, output) in outputs.iter().enumerate() {
        if let Some(k) = same(&to[..i], &to[i]) {
            return Err(one_file(&outputs[k], output));
        }
        if let Some(k) = same(&from, &to[i]) {
            let word = file_word(output.place, inputs[k].place);
            let (output, input) = (output.word, inputs[k].word);
            return Err(tell::words(format!(
                "the output {output} is the input {input}: '{word}'"
            )));
        }
        if *output.place == Place::Standard && io::stdout().is_terminal() {
            let line = "is -, and standard output is a terminal: name a file";
            return Err(tell::words(format!("{} {line}", output.word)));
        }
    }
    for (i, input) in inputs.iter().enumerate() {
        if let Some(k) = same(&from[..i], &from[i]) {
            if input.secret || inputs[k].secret {
                return Err(one_file(&inputs[k], input));
            }
        }
    }
    Ok(())
}

fn same(all: &[Option<Identity>], one: &Option<Identity>) -> Option<usize> {
    all.iter().position(|other| one.is_some() && other == one)
}

fn one_file(one: &Named, other: &Named) -> Fault {
    let word = file_word(other.place, one.place);
    let (one, other) = (one.word, other.word);
    tell::words(format!("{one} and {other} are one file: '{word}'"))
}

/// The word of whichever of the two is a file.
fn file_word(place: &Place, other: &Place) -> String {
    let path = place.path().or(other.path());
    path.map_or("-".to_string(), shown)
}

/// What a file is known by: the numbers that the system has for it, whatever
/// its names; of one that is still to be made, its folder's and its name.
#[derive(PartialEq)]
enum Identity {
    Known(u64, u64),
    New(u64, u64, OsString),
}

/// Which way a file is used.
#[derive(Clone, Copy, PartialEq)]
pub enum Way {
    In,
    Out,
}

/// A standard stream counts where it is a plain file: a terminal may well be both.
fn identity(place: &Place, way: Way) -> Option<Identity> {
    let known = |file: Metadata| Identity::Known(file.dev(), file.ino());
    match place {
        Place::Nothing => None,
        Place::Standard => {
            let metadata = standard(way).ok()?.metadata().ok()?;
            metadata.is_file().then(|| known(metadata))
        }
        Place::File(path) => match path.metadata() {
            Ok(file) => Some(known(file)),
            Err(_) => {
                let folder = folder(path).metadata().ok()?;
                let name = path.file_name()?.to_os_string();
                Some(Identity::New(folder.dev(), folder.ino(), name))
            }
        },
    }
}

/// Standard input or output as a file without a buffer of its own, which would
/// keep a copy of what passes.
pub fn standard(way: Way) -> io::Result<File> {
    let stream = match way {
        Way::In => io::stdin().as_fd().try_clone_to_owned(),
        Way::Out => io::stdout().as_fd().try_clone_to_owned(),
    };
    stream.map(File::from)
}

/// The folder that a file stands in.
pub fn folder(path: &Path) -> &Path {
    match path.parent() {
        Some(folder) if !folder.as_os_str().is_empty() => folder,
        _ => Path::new("."),
    }
}

/// What is not a plain file, in words.
pub fn kind(kind: FileType) -> Option<&'static str> {
    if kind.is_file() {
        None
    } else if kind.is_dir() {
        Some("a folder")
    } else if kind.is_symlink() {
        Some("a symbolic link")
    } else if kind.is_fifo() {
        Some("a pipe")
    } else if kind.is_socket() {
        Some("a socket")
    } else {
        Some("a device")
    }
}

/// That a file that was looked at is a plain one. Others have a way in and out
/// by `-`.
fn plain(path: &Path, found: &Metadata) -> Result<(), Fault> {
    let advice = match kind(found.file_type()) {
        None => return Ok(()),
        Some(folder) if found.is_dir() => format!("is {folder}"),
        Some(link) if found.is_symlink() => {
            format!("is {link}: name the file itself, or - for standard output")
        }
        Some(other) => format!("is {other}: pipes and devices are taken by - alone"),
    };
    Err(tell::file(path, advice))
}

/// An output is a file that is not there yet, or with `--replace` a plain file.
pub fn new(place: &Place) -> Result<(), Fault> {
    replaceable(place)?;
    match place.path() {
        Some(path) if !options::replace() && path.symlink_metadata().is_ok() => {
            let line = "is there already: name another file, or put --replace first";
            Err(tell::file(path, line))
        }
        _ => Ok(()),
    }
}

/// An output that is there already is a plain file, not a link to one.
pub fn replaceable(place: &Place) -> Result<(), Fault> {
    let Some(path) = place.path() else {
        return Ok(());
    };
    match path.symlink_metadata() {
        Ok(found) => plain(path, &found),
        Err(error) if error.kind() == ErrorKind::NotFound => match path.file_name() {
            Some(_) if folder(path).is_dir() => Ok(()),
            _ => Err(tell::file(path, reason(&error))),
        },
        Err(error) => Err(tell::file(path, reason(&error))),
    }
}

/// Whether a path still leads to the file that was opened there, and is no link.
pub fn same_file(path: &Path, file: &File) -> bool {
    match (path.symlink_metadata(), file.metadata()) {
        (Ok(named), Ok(opened)) => (named.dev(), named.ino()) == (opened.dev(), opened.ino()),
        _ => false,
    }
}

/// That a secret is closed to others, or that `--any-mode` was given. A stream that
/// is no file has no mode to be looked at.
fn closed(name: &OsStr, file: &File) -> Result<(), Fault> {
    let found = file
        .metadata()
        .map_err(|error| tell::file(name, reason(&error)))?;
    let mode = found.mode() & 0o777;
    if !found.is_file() || mode & 0o066 == 0 || options::any_mode() {
        return Ok(());
    }
    let line =
        format!("is a secret that others may read (mode {mode:o}): chmod 600, or --any-mode");
    Err(tell::file(name, line))
}

// ---- the inputs

/// What was lent as an input.
pub struct Lent {
    pub data: Data,
    /// How many entries the file has, where it was not read to its end.
    beyond: Option<u64>,
    /// Whether there may be more than that.
    open: bool,
}

impl Lent {
    /// So many entries that are zero.
    pub fn zeros(kind: Kind, n: usize) -> Lent {
        Lent {
            data: Data::zeros(kind, n),
            beyond: None,
            open: false,
        }
    }

    /// How many entries there are: of a stream that was not read to its end, as
    /// `33..`.
    pub fn there(&self) -> String {
        let n = self.beyond.unwrap_or(self.data.len() as u64);
        let more = if self.open { ".." } else { "" };
        format!("{n}{more}")
    }
}

/// Reads an input up to one entry beyond the largest of any scheme: a longer
/// one is then refused by its length.
pub fn read(input: &Input, place: &Place) -> Result<Lent, Fault> {
    let name = match place {
        Place::File(path) => path.as_os_str(),
        _ => OsStr::new("standard input"),
    };
    let wrong = |error: io::Error| tell::file(name, reason(&error));
    let mut file = match place {
        Place::File(path) => open(path)?,
        Place::Standard => standard(Way::In).map_err(wrong)?,
        Place::Nothing => return Ok(Lent::zeros(input.kind, 0)),
    };
    if input.secret {
        closed(name, &file)?;
    }
    match input.kind {
        Kind::Words => return words(&mut file, name),
        Kind::Rows => return rows(file, name, place),
        Kind::Numbers | Kind::Values | Kind::Bytes => {}
    }
    let entry = input.kind.entry();
    let mut bytes = Wiped::zeros(entry * (input.length.largest() + 1));
    let n = fill(&mut file, &mut bytes).map_err(wrong)?;
    let full = n == bytes.len();
    bytes.truncate(n);

    // a file that was not read to its end has a length all the same
    let all = match place.path() {
        Some(_) if full => file.metadata().map_err(wrong)?.len().max(n as u64),
        _ => n as u64,
    };
    if all % entry as u64 != 0 {
        let line = format!("{all} bytes are no whole number of 32-bit numbers");
        return Err(tell::file(name, line));
    }
    Ok(Lent {
        data: Data::from_file(input.kind, bytes),
        beyond: full.then_some(all / entry as u64),
        open: full && place.path().is_none(),
    })
}

/// A table, which is text.
fn words(file: &mut File, name: &OsStr) -> Result<Lent, Fault> {
    let mut text = Wiped::zeros(bcns::LONGEST + 1);
    let n = fill(file, &mut text).map_err(|error| tell::file(name, reason(&error)))?;
    if n > bcns::LONGEST {
        let line = format!("is no table: it has over {} bytes", bcns::LONGEST);
        return Err(tell::file(name, line));
    }
    let words = bcns::read(&text[..n]).map_err(|line| {
        let entry = "an entry, three words of 16 hexadecimal digits";
        tell::file(name, format!("is no table: line {line} is not {entry}"))
    })?;
    Ok(Lent {
        data: Data::Words(words),
        beyond: None,
        open: false,
    })
}

/// Rows, which are read by the call.
fn rows(file: File, name: &OsStr, place: &Place) -> Result<Lent, Fault> {
    let bytes = match place.path() {
        Some(_) => {
            let found = file.metadata();
            Some(
                found
                    .map_err(|error| tell::file(name, reason(&error)))?
                    .len(),
            )
        }
        None => None,
    };
    Ok(Lent {
        data: Data::Rows(Rows::new(file, name, bytes)?),
        beyond: None,
        open: false,
    })
}

/// A plain file, or a link to one, opened for reading. Its kind is looked at
/// before, since opening alone can already do something to a device, and again
/// behind the handle, should it have been changed in between.
fn open(path: &Path) -> Result<File, Fault> {
    let wrong = |error: io::Error| tell::file(path, reason(&error));
    plain(path, &path.metadata().map_err(wrong)?)?;
    let file = OpenOptions::new()
        .read(true)
        .custom_flags(NO_WAIT)
        .open(path)
        .map_err(wrong)?;
    plain(path, &file.metadata().map_err(wrong)?)?;
    Ok(file)
}

/// Reads until the room is full or the input ends; gives how many bytes.
pub fn fill(file: &mut File, room: &mut [u8]) -> io::Result<usize> {
    let mut n = 0;
    while n < room.len() {
        match file.read(&mut room[n..]) {
            Ok(0) => break,
            Ok(more) => n += more,
            Err(error) if error.kind() == ErrorKind::Interrupted => {}
            Err(error) => return Err(error),
        }
    }
    Ok(n)
}
