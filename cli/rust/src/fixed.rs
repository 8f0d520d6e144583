//! The calls from random bytes, on arrays of a scheme's own sizes: a buffer of another
//! length does not compile. The random bytes come from a function of the caller's.
//! Neither they nor what is made of them outlive the call, but for s, which the
//! initiator keeps.
//!
//! The first page of this package has both ends by NewHope.
//!
//! An array of another scheme does not compile:
//!
//! ```compile_fail,E0308
//! # use wimmostry::{fixed::NewHope, Initiator, Rule};
//! # fn other(fill: fn(&mut [u8])) {
//! let (mut s, mut opening) = ([0; 1024], [0; 1825]);
//! let _ = Initiator::open::<NewHope>(Rule::LowBits, |_| &[], fill, &mut s, &mut opening);
//! # }
//! ```

use crate::session::answered;
use crate::{raw, Answered, Digest, Initiator, Key, Refusal, Replied, Replier, Rule, Scheme};
use crate::{Secret, Session, BCNS_TABLE};

mod sealed {
    pub trait Sealed {}
}

/// A scheme by its type, and its arrays.
pub trait Fixed: sealed::Sealed {
    /// The scheme.
    const SCHEME: Scheme;
    /// s.
    type S: AsMut<[i32]>;
    /// The opening message.
    type Opening: AsRef<[u8]> + AsMut<[u8]>;
    /// The reply message.
    type Reply: AsRef<[u8]> + AsMut<[u8]>;
    /// A key.
    type Key: AsMut<[u8]>;
    /// The random bytes of an open.
    type OpenBytes: AsMut<[u8]>;
    /// The random bytes of an answer.
    type AnswerBytes: AsMut<[u8]>;
    /// Room for the random bytes of an open.
    const OPEN_BYTES: Self::OpenBytes;
    /// Room for the random bytes of an answer.
    const ANSWER_BYTES: Self::AnswerBytes;
}

macro_rules! fixed {
    ($($scheme:ident),*) => {$(
        #[doc = concat!("[`Scheme::", stringify!($scheme), "`] with its arrays.")]
        #[derive(Clone, Copy, Debug)]
        pub enum $scheme {}

        impl sealed::Sealed for $scheme {}

        impl Fixed for $scheme {
            const SCHEME: Scheme = Scheme::$scheme;
            type S = [i32; Scheme::$scheme.sizes().s];
            type Opening = [u8; Scheme::$scheme.sizes().opening];
            type Reply = [u8; Scheme::$scheme.sizes().reply];
            type Key = [u8; Scheme::$scheme.sizes().key];
            type OpenBytes = [u8; Scheme::$scheme.sizes().open_bytes];
            type AnswerBytes = [u8; Scheme::$scheme.sizes().answer_bytes];
            const OPEN_BYTES: Self::OpenBytes = [0; Scheme::$scheme.sizes().open_bytes];
            const ANSWER_BYTES: Self::AnswerBytes = [0; Scheme::$scheme.sizes().answer_bytes];
        }
    )*};
}

fixed!(
    Bcns,
    NewHope,
    FrodoChallenge,
    FrodoClassical,
    FrodoRecommended,
    FrodoParanoid
);

/// BCNS's table, which the other schemes are not lent.
fn table(scheme: Scheme) -> &'static [u64] {
    &BCNS_TABLE[..scheme.sizes().table]
}

/// An open, plain or on a session: s goes to the initiator.
fn opened<'s, 'a, X: Fixed>(
    a: impl FnOnce(&[u8]) -> &'a [u32],
    fill: impl FnOnce(&mut [u8]),
    s: &'s mut X::S,
    call: impl FnOnce(&[u32], &[u64], &[u8], &mut [i32]) -> Result<raw::Opened, Refusal>,
) -> Result<Initiator<'s>, Refusal> {
    let scheme = X::SCHEME;
    let mut bytes = X::OPEN_BYTES;
    let mut random = Secret::new(bytes.as_mut());
    fill(random.entries_mut());
    let a = a(&random.entries()[..scheme.sizes().seed]);
    let mut s = Secret::new(s.as_mut());
    call(a, table(scheme), random.entries(), s.entries_mut())?;
    Ok(Initiator { scheme, s })
}

/// The random bytes of an answer.
fn drawn<X: Fixed, T>(fill: impl FnOnce(&mut [u8]), call: impl FnOnce(&[u8]) -> T) -> T {
    let mut bytes = X::ANSWER_BYTES;
    let mut random = Secret::new(bytes.as_mut());
    fill(random.entries_mut());
    call(random.entries())
}

impl<'s> Initiator<'s> {
    /// Open: an offer on what random bytes make. `fill` fills them; `a` gives the
    /// public numbers: in BCNS its own, in Frodo what the caller makes of the seed,
    /// and in NewHope none, since the rule grows them. Writes the opening message.
    ///
    /// # Errors
    ///
    /// Refuses with 2 and 4, for what `a` gives, with 7 and with 17.
    pub fn open<'a, X: Fixed>(
        rule: Rule,
        a: impl FnOnce(&[u8]) -> &'a [u32],
        fill: impl FnOnce(&mut [u8]),
        s: &'s mut X::S,
        opening: &mut X::Opening,
    ) -> Result<Initiator<'s>, Refusal> {
        let (scheme, rule, out) = (X::SCHEME.number(), rule.number(), opening.as_mut());
        opened::<X>(a, fill, s, |a, table, random, s| {
            raw::open(scheme, rule, a, table, random, out, s)
        })
    }
}

impl Replier<'_> {
    /// Answer: a reply on what random bytes make, which `fill` fills. a is as
    /// [`Initiator::open`] has it. Writes the reply message and the replier's key,
    /// and gives the key's digest.
    ///
    /// # Errors
    ///
    /// Refuses with 2 and 4, for a, and with 5, 17, 7 and 17, in this order.
    pub fn answer<'m, 'k, X: Fixed>(
        rule: Rule,
        opening: &X::Opening,
        a: &[u32],
        fill: impl FnOnce(&mut [u8]),
        reply: &'m mut X::Reply,
        key: &'k mut X::Key,
    ) -> Result<Replied<'m, 'k>, Refusal> {
        let (scheme, rule) = (X::SCHEME, rule.number());
        let (message, key, mut digest) = (reply.as_mut(), key.as_mut(), [0; 32]);
        let (number, opening, table) = (scheme.number(), opening.as_ref(), table(scheme));
        drawn::<X, _>(fill, |random| {
            let digest = &mut digest;
            raw::answer(
                number, rule, opening, a, table, random, message, key, digest,
            )
        })?;
        Ok(Replied {
            message,
            key: Key::new(key),
            digest: Digest(digest),
        })
    }
}

impl Session<'_> {
    /// [`Initiator::open`] when idle, which leads to offered with that scheme. The
    /// initiator that comes back holds s, for [`finish`](Session::finish).
    ///
    /// # Errors
    ///
    /// Refuses with 10, and then as [`Initiator::open`] does. The session is then as
    /// it was.
    pub fn open<'s, 'a, X: Fixed>(
        &mut self,
        rule: Rule,
        a: impl FnOnce(&[u8]) -> &'a [u32],
        fill: impl FnOnce(&mut [u8]),
        s: &'s mut X::S,
        opening: &mut X::Opening,
    ) -> Result<Initiator<'s>, Refusal> {
        let (scheme, rule, out) = (X::SCHEME.number(), rule.number(), opening.as_mut());
        opened::<X>(a, fill, s, |a, table, random, s| {
            raw::session::open(self.bytes, scheme, rule, a, table, random, out, s)
        })
    }

    /// [`Replier::answer`] when idle, which leads to keyed with that scheme. The key
    /// stays in the session.
    ///
    /// # Errors
    ///
    /// Refuses with 10, and then as [`Replier::answer`] does. The session is then as
    /// it was.
    pub fn answer<'m, X: Fixed>(
        &mut self,
        rule: Rule,
        opening: &X::Opening,
        a: &[u32],
        fill: impl FnOnce(&mut [u8]),
        reply: &'m mut X::Reply,
    ) -> Result<Answered<'m>, Refusal> {
        let (number, rule, table) = (X::SCHEME.number(), rule.number(), table(X::SCHEME));
        let (bytes, opening) = (&mut *self.bytes, opening.as_ref());
        answered(reply.as_mut(), |message, key, digest| {
            drawn::<X, _>(fill, |random| {
                raw::session::answer(
                    bytes, number, rule, opening, a, table, random, message, key, digest,
                )
            })
        })
    }
}
