//! Buffers that are wiped when their owner is done with them.

use crate::{raw, Refusal, Scheme};
use core::fmt;

/// What a secret is made of: values, bytes or numbers.
pub trait Entry: Copy + sealed::Sealed {}

mod sealed {
    pub trait Sealed {}
    impl Sealed for u8 {}
    impl Sealed for i32 {}
    impl Sealed for u32 {}
}

impl Entry for u8 {}
impl Entry for i32 {}
impl Entry for u32 {}

/// Zeros that no compiler drops, though nobody reads them. A [`Secret`] and a [`Key`]
/// are wiped by themselves; this is for buffers that are neither.
pub fn wipe<T: Entry>(entries: &mut [T]) {
    // SAFETY: pointer and length in bytes are those of one slice, borrowed mutably,
    // whose entries are numbers, so that zeros are entries too.
    unsafe { raw::ffi::wim_wipe(entries.as_mut_ptr().cast(), size_of_val(entries)) }
}

/// Whether two slices hold the same bytes, in a time that depends on their lengths
/// alone: for tags and digests. Slices of different lengths are not the same.
///
/// ```
/// assert!(wimmostry::same(b"tag", b"tag"));
/// assert!(!wimmostry::same(b"tag", b"tap") && !wimmostry::same(b"tag", b"ta"));
/// ```
#[must_use]
pub fn same(a: &[u8], b: &[u8]) -> bool {
    // SAFETY: both slices have as many bytes as it reads of each.
    a.len() == b.len()
        && unsafe { raw::ffi::wim_same(a.as_ptr().cast(), b.as_ptr().cast(), a.len()) } == 1
}

/// A secret in a lent buffer, which is wiped when the secret is dropped: values
/// (s, e, s', e', e''), bytes (coins, and the random bytes of noise), or the
/// numbers of a running state by rows.
///
/// It cannot be copied, and does not print what it holds. The buffer is the
/// caller's, so that moving a secret leaves no copy of it behind.
///
/// ```
/// use wimmostry::Secret;
/// let mut coins = [7u8; 32];
/// let secret = Secret::new(&mut coins);
/// assert_eq!(format!("{secret:?}"), "Secret(..)");
/// drop(secret);
/// assert_eq!(coins, [0; 32]);
/// ```
///
/// One that nobody takes is wiped on the spot, of which the compiler warns:
///
/// ```compile_fail
/// #![deny(unused_must_use)]
/// # let mut coins = [7u8; 32];
/// wimmostry::Secret::new(&mut coins);
/// ```
#[must_use]
pub struct Secret<'b, T: Entry = i32>(&'b mut [T]);

impl<'b, T: Entry> Secret<'b, T> {
    /// What the buffer holds, from here on a secret.
    pub fn new(buffer: &'b mut [T]) -> Secret<'b, T> {
        Secret(buffer)
    }

    pub(crate) fn entries(&self) -> &[T] {
        self.0
    }

    pub(crate) fn entries_mut(&mut self) -> &mut [T] {
        self.0
    }
}

impl<'b> Secret<'b> {
    /// The values that random bytes give, written to `room`: those of s, e, s'
    /// or e' from [`s_bytes`](crate::Sizes::s_bytes) bytes, those of e'' from
    /// [`e2_bytes`](crate::Sizes::e2_bytes). The bytes are wiped. The table, which
    /// is public, is BCNS's alone: [`BCNS_TABLE`](crate::BCNS_TABLE), or another of
    /// [`table`](crate::Sizes::table) words; and `&[]` in the other schemes.
    ///
    /// # Errors
    ///
    /// Refuses with 2, 3 and 18, in this order.
    pub fn noise(
        scheme: Scheme,
        bytes: Secret<'_, u8>,
        table: &[u64],
        room: &'b mut [i32],
    ) -> Result<Secret<'b>, Refusal> {
        let written = raw::noise(scheme.number(), bytes.entries(), table, room)?;
        Ok(Secret(&mut room[..written]))
    }
}

impl<T: Entry> Drop for Secret<'_, T> {
    fn drop(&mut self) {
        wipe(self.0);
    }
}

impl<T: Entry> fmt::Debug for Secret<'_, T> {
    fn fmt(&self, f: &mut fmt::Formatter) -> fmt::Result {
        f.write_str("Secret(..)")
    }
}

/// A raw key in a lent buffer, which is wiped when the key is dropped. Hash it,
/// together with both messages, before use.
///
/// It cannot be copied, compared or printed; [`Key::bytes`] is the one way in,
/// and what can be compared and shown is its [`Digest`](crate::Digest).
#[must_use]
pub struct Key<'b>(&'b mut [u8]);

impl<'b> Key<'b> {
    pub(crate) fn new(bytes: &'b mut [u8]) -> Key<'b> {
        Key(bytes)
    }

    /// The bytes. Compare tags that are made with them, by [`same`], and not keys.
    #[must_use]
    pub fn bytes(&self) -> &[u8] {
        self.0
    }
}

impl Drop for Key<'_> {
    fn drop(&mut self) {
        wipe(self.0);
    }
}

impl fmt::Debug for Key<'_> {
    fn fmt(&self, f: &mut fmt::Formatter) -> fmt::Result {
        f.write_str("Key(..)")
    }
}
