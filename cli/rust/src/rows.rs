//! Frodo by rows: Offer and Reply for a box that cannot hold all of A.
//!
//! [`Offering::begin`] and [`Replying::begin`] take the secrets and a lent buffer
//! for the running state, `part` is fed the rows of A one after the other, whole
//! or in parts, and `end` gives what [`Initiator::offer`] and
//! [`Replier::reply`](crate::Replier::reply) give on the whole of A. Each row can
//! be made, lent and overwritten by the next:
//!
//! ```
//! use wimmostry::rows::{Offering, Replying};
//! use wimmostry::{shake128, Refusal, Scheme, Secret};
//!
//! /// Row i of A, by a rule of the boxes' own.
//! fn make(seed: &[u8; 16], i: usize, row: &mut [u32; 352]) -> Result<(), Refusal> {
//!     let (mut input, mut bytes) = ([0; 18], [0; 2 * 352]);
//!     input[..16].copy_from_slice(seed);
//!     input[16..].copy_from_slice(&(i as u16).to_le_bytes());
//!     shake128(&input, &mut bytes)?;
//!     for (number, two) in row.iter_mut().zip(bytes.chunks_exact(2)) {
//!         *number = u32::from(u16::from_le_bytes([two[0], two[1]]) % 2048);
//!     }
//!     Ok(())
//! }
//!
//! # fn main() -> Result<(), Refusal> {
//! # let (mut s, mut e) = ([0i32; 2816], [1i32; 2816]);
//! # let (mut s1, mut e1, mut e2) = ([0i32; 2816], [-1i32; 2816], [1i32; 64]);
//! # for (k, (x, y)) in s.iter_mut().zip(&mut s1).enumerate() { (*x, *y) = ((k % 3) as i32 - 1, (k % 5) as i32 - 2) };
//! let (seed, mut row, mut state) = ([7; 16], [0; 352], [0; 5699]);
//! let scheme = Scheme::FrodoChallenge;
//!
//! // The initiator, with s and e drawn.
//! let (s, e) = (Secret::new(&mut s), Secret::new(&mut e));
//! let mut offering = Offering::begin(scheme, s, e, &seed, &mut state)?;
//! for i in 0..352 {
//!     make(&seed, i, &mut row)?;
//!     offering.part(&row)?;
//! }
//! let mut room = [0; 3888];
//! let offered = offering.end(&mut room)?;
//!
//! // The replier, which finds the seed at the start of the opening.
//! let (s1, e1, e2) = (Secret::new(&mut s1), Secret::new(&mut e1), Secret::new(&mut e2));
//! let mut state = [0; 5699];
//! let mut replying = Replying::begin(scheme, offered.opening, s1, e1, e2, &mut state)?;
//! for i in 0..352 {
//!     make(&seed, i, &mut row)?;
//!     let (left, right) = row.split_at(100); // any cut will do
//!     replying.part(left)?;
//!     replying.part(right)?;
//! }
//! let (mut message, mut key, mut peer_key) = ([0; 3880], [0; 8], [0; 8]);
//! let replied = replying.end(&mut message, &mut key)?;
//!
//! let finished = offered.initiator.finish(replied.message, &mut peer_key)?;
//! assert_eq!(finished.digest, replied.digest);
//! # Ok(())
//! # }
//! ```
//!
//! The type tells the stage. A part before begin does not compile, since there is
//! nothing to feed it to:
//!
//! ```compile_fail,E0308
//! # use wimmostry::{rows::Offering, Refusal};
//! # fn early(row: &[u32]) -> Result<(), Refusal> {
//! let mut state = [0u32; 5699];
//! Offering::part(&mut state, row)?;
//! # Ok(())
//! # }
//! ```
//!
//! nor does one after the end:
//!
//! ```compile_fail,E0382
//! # use wimmostry::{rows::Offering, Refusal};
//! # fn late(mut offering: Offering, row: &[u32]) -> Result<(), Refusal> {
//! let mut message = [0; 3888];
//! offering.end(&mut message)?;
//! offering.part(row)?;
//! # Ok(())
//! # }
//! ```
//!
//! nor a part of the one call for the other's begin:
//!
//! ```compile_fail,E0308
//! # use wimmostry::{rows::{Offering, Replying}, Refusal};
//! # fn crossed(mut offering: Offering, row: &[u32]) -> Result<(), Refusal> {
//! Replying::part(&mut offering, row)?;
//! # Ok(())
//! # }
//! ```

use crate::{raw, Digest, Initiator, Key, Offered, Refusal, Replied, Scheme, Secret};
use core::fmt;

/// A refused end, which changes nothing: it can be tried again, or more rows be
/// fed. With `?` the rows are dropped, and their state is wiped.
#[derive(Debug)]
#[must_use]
pub struct Unended<T> {
    /// Why.
    pub refusal: Refusal,
    /// The rows so far, as they were.
    pub rows: T,
}

impl<T> From<Unended<T>> for Refusal {
    fn from(unended: Unended<T>) -> Refusal {
        unended.refusal
    }
}

impl<T> fmt::Display for Unended<T> {
    fn fmt(&self, f: &mut fmt::Formatter) -> fmt::Result {
        self.refusal.fmt(f)
    }
}

impl<T: fmt::Debug> core::error::Error for Unended<T> {}

/// The lent state of a scheme, which may be longer than it needs. It is wiped when
/// it is dropped.
#[derive(Debug)]
struct State<'b> {
    scheme: Scheme,
    numbers: Secret<'b, u32>,
}

impl<'b> State<'b> {
    fn new(scheme: Scheme, room: &'b mut [u32]) -> State<'b> {
        let n = room.len().min(scheme.sizes().state);
        let numbers = Secret::new(&mut room[..n]);
        State { scheme, numbers }
    }

    /// Row and column of the next number. A state that a begin left has, at 2, how
    /// many numbers of A have come.
    fn position(&self) -> (usize, usize) {
        let (come, n) = (self.numbers.entries()[2] as usize, self.scheme.sizes().row);
        (come / n, come % n)
    }
}

/// What the parts left on the stack, where no end does it.
impl Drop for State<'_> {
    fn drop(&mut self) {
        raw::scrub();
    }
}

/// Offer between its begin and its end.
///
/// It holds s, for [`Initiator::finish`], and the lent state. Both are wiped when
/// it is dropped.
#[derive(Debug)]
#[must_use]
pub struct Offering<'b> {
    state: State<'b>,
    s: Secret<'b>,
}

impl<'b> Offering<'b> {
    /// Begin: secret s, noise e, seed; and room for the state,
    /// [`state`](crate::Sizes::state) numbers or more. e is wiped, s is kept.
    ///
    /// # Errors
    ///
    /// Refuses with 1 in BCNS and NewHope, 2 and 6. Both secrets are then wiped.
    pub fn begin(
        scheme: Scheme,
        s: Secret<'b>,
        e: Secret<'_>,
        seed: &[u8],
        state: &'b mut [u32],
    ) -> Result<Offering<'b>, Refusal> {
        let mut state = State::new(scheme, state);
        raw::rows::offer_begin(
            scheme.number(),
            s.entries(),
            e.entries(),
            seed,
            state.numbers.entries_mut(),
        )?;
        Ok(Offering { state, s })
    }

    /// A part: the next numbers of the current row, all or some of it or none.
    ///
    /// # Errors
    ///
    /// Refuses with 11 where it runs past the row or past the last row, and 4,
    /// whose place is the index in the part. Nothing has changed then.
    pub fn part(&mut self, part: &[u32]) -> Result<(), Refusal> {
        raw::rows::offer_part(part, self.state.numbers.entries_mut())
    }

    /// Row and column of the next number; behind the last row n and 0.
    #[must_use]
    pub fn position(&self) -> (usize, usize) {
        self.state.position()
    }

    /// The scheme of the exchange.
    #[must_use]
    pub fn scheme(&self) -> Scheme {
        self.state.scheme
    }

    /// End: writes the opening message to `message`, which may be longer. The
    /// state is wiped, s is kept.
    ///
    /// # Errors
    ///
    /// Refuses with 11 where rows are missing, 3 and 17; the rows so far come back.
    pub fn end(mut self, message: &mut [u8]) -> Result<Offered<'b, '_>, Unended<Offering<'b>>> {
        match raw::rows::offer_end(self.state.numbers.entries_mut(), message) {
            Ok(written) => Ok(Offered {
                initiator: Initiator::offered(self.state.scheme, self.s),
                opening: &message[..written],
            }),
            Err(refusal) => Err(Unended {
                refusal,
                rows: self,
            }),
        }
    }
}

/// Reply between its begin and its end. It holds the lent state, which is wiped
/// when it is dropped.
#[derive(Debug)]
#[must_use]
pub struct Replying<'b> {
    state: State<'b>,
}

impl<'b> Replying<'b> {
    /// Begin: opening message, s', e', e''; and room for the state,
    /// [`state`](crate::Sizes::state) numbers or more. The secrets are wiped: what
    /// is needed of them is in the state.
    ///
    /// # Errors
    ///
    /// Refuses with 1 in BCNS and NewHope, 2, 17 where the opening is blank, and 6.
    /// The secrets are wiped all the same.
    pub fn begin(
        scheme: Scheme,
        opening: &[u8],
        s1: Secret<'_>,
        e1: Secret<'_>,
        e2: Secret<'_>,
        state: &'b mut [u32],
    ) -> Result<Replying<'b>, Refusal> {
        let mut state = State::new(scheme, state);
        raw::rows::reply_begin(
            scheme.number(),
            opening,
            s1.entries(),
            e1.entries(),
            e2.entries(),
            state.numbers.entries_mut(),
        )?;
        Ok(Replying { state })
    }

    /// A part: the next numbers of the current row, all or some of it or none.
    ///
    /// # Errors
    ///
    /// Refuses with 11 where it runs past the row or past the last row, and 4,
    /// whose place is the index in the part. Nothing has changed then.
    pub fn part(&mut self, part: &[u32]) -> Result<(), Refusal> {
        raw::rows::reply_part(part, self.state.numbers.entries_mut())
    }

    /// Row and column of the next number; behind the last row n and 0.
    #[must_use]
    pub fn position(&self) -> (usize, usize) {
        self.state.position()
    }

    /// The scheme of the exchange.
    #[must_use]
    pub fn scheme(&self) -> Scheme {
        self.state.scheme
    }

    /// End: writes the reply message and the replier's key to `message` and `key`,
    /// which may be longer, and gives the key's digest. The state is wiped.
    ///
    /// # Errors
    ///
    /// Refuses with 11 where rows are missing, 3 and 17, where the reply would be
    /// blank; the rows so far come back.
    pub fn end<'m, 'k>(
        mut self,
        message: &'m mut [u8],
        key: &'k mut [u8],
    ) -> Result<Replied<'m, 'k>, Unended<Replying<'b>>> {
        let mut digest = [0; 32];
        let state = self.state.numbers.entries_mut();
        match raw::rows::reply_end(state, message, key, &mut digest) {
            Ok(written) => Ok(Replied {
                message: &message[..written.message],
                key: Key::new(&mut key[..written.key]),
                digest: Digest(digest),
            }),
            Err(refusal) => Err(Unended {
                refusal,
                rows: self,
            }),
        }
    }
}
