//! SHAKE-128 and SHA3-256, by FIPS 202.

use crate::{raw, Refusal};
use core::fmt;

/// The longest input of [`shake128`] and [`sha3_256`], in bytes.
pub const HASH_INPUT: usize = 65536;

/// A SHA3-256. That of a key tells whether two boxes have the same one: equal
/// keys have equal digests, and a digest can be shown or compared where a key
/// cannot. It is of the raw key alone, and whoever sees it can try keys against
/// it.
///
/// It can be copied and is not wiped: one that is to be used as a key itself is
/// the caller's to guard, and not to show.
///
/// ```
/// let digest = wimmostry::sha3_256(b"")?;
/// assert_eq!(
///     digest.to_string(),
///     "a7ffc6f8bf1ed76651c14756a061d662f580ff4de43b49fa82d80a4b80f8434a"
/// );
/// # Ok::<(), wimmostry::Refusal>(())
/// ```
#[derive(Clone, Copy, Debug, PartialEq, Eq, Hash)]
#[must_use]
pub struct Digest(pub [u8; 32]);

impl fmt::Display for Digest {
    /// In 64 hexadecimal digits.
    fn fmt(&self, f: &mut fmt::Formatter) -> fmt::Result {
        self.0.iter().try_for_each(|byte| write!(f, "{byte:02x}"))
    }
}

/// SHAKE-128: fills `out`, however long it is, none included.
///
/// # Errors
///
/// Refuses with 2, where the input is over [`HASH_INPUT`] bytes.
pub fn shake128(input: &[u8], out: &mut [u8]) -> Result<(), Refusal> {
    raw::shake128(input, out).map(|_| ())
}

/// SHA3-256.
///
/// # Errors
///
/// Refuses with 2, where the input is over [`HASH_INPUT`] bytes.
pub fn sha3_256(input: &[u8]) -> Result<Digest, Refusal> {
    let mut digest = [0; 32];
    raw::sha3_256(input, &mut digest)?;
    Ok(Digest(digest))
}
