//! Random bytes of the system.

use crate::data::Wiped;
use crate::tell::{self, reason, Fault};
use std::fs::File;
use std::io::Read;

const SOURCE: &str = "/dev/urandom";

pub fn bytes(n: usize) -> Result<Wiped<u8>, Fault> {
    let mut bytes = Wiped::zeros(n);
    fill(&mut bytes)?;
    Ok(bytes)
}

pub fn fill(room: &mut [u8]) -> Result<(), Fault> {
    let read = File::open(SOURCE).and_then(|mut source| source.read_exact(room));
    read.map_err(|error| tell::file(SOURCE, reason(&error)))
}
