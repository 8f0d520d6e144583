//! One end of a link, kept in step.

use crate::raw::{self, Slack};
use crate::secret::wipe;
use crate::{Digest, Initiator, Offered, Refusal, Replier, Scheme, Secret, Sizes};
use core::fmt;

/// Bytes of a session: its stage, its scheme, and room for the largest key.
pub const SESSION: usize = KEY + Sizes::LARGEST.key;

/// Where the key begins, behind stage and scheme.
const KEY: usize = 2;

/// Where a link stands.
#[derive(Clone, Copy, Debug, PartialEq, Eq, Hash)]
pub enum Stage {
    /// Nothing has happened, or the session was closed.
    Idle,
    /// It has offered with this scheme, and waits for the reply.
    Offered(Scheme),
    /// It has replied or finished with this scheme, and holds the key.
    Keyed(Scheme),
}

impl Stage {
    /// The stage that the bytes of a session are in. A buffer of another length,
    /// or one that no call leaves, is in none: every call but close refuses it
    /// with 10.
    #[must_use]
    pub fn of(session: &[u8]) -> Option<Stage> {
        let (&[stage, scheme], key) = session.split_first_chunk()?;
        let known = Scheme::try_from(u32::from(scheme)).ok()?;
        let (stage, used) = match (stage, scheme) {
            (0, 0) => (Stage::Idle, 0),
            (1, _) => (Stage::Offered(known), 0),
            (2, _) => (Stage::Keyed(known), known.sizes().key),
            _ => return None,
        };
        let zeros = key.get(used..)?.iter().all(|&byte| byte == 0);
        (session.len() == SESSION && zeros).then_some(stage)
    }

    /// The scheme that the link was opened with.
    #[must_use]
    pub fn scheme(self) -> Option<Scheme> {
        match self {
            Stage::Idle => None,
            Stage::Offered(scheme) | Stage::Keyed(scheme) => Some(scheme),
        }
    }

    /// The name as it is written.
    #[must_use]
    pub const fn name(self) -> &'static str {
        match self {
            Stage::Idle => "idle",
            Stage::Offered(_) => "offered",
            Stage::Keyed(_) => "keyed",
        }
    }
}

/// A session in a lent buffer: one end of a link, which knows where the exchange
/// stands and holds the key. It is closed, and so its key wiped, when it is
/// dropped.
///
/// | call | allowed | leads to |
/// |---|---|---|
/// | [`offer`](Session::offer) | idle | offered with that scheme |
/// | [`open`](Session::open) | idle | offered with that scheme |
/// | [`reply`](Session::reply) | idle | keyed with that scheme, its key |
/// | [`answer`](Session::answer) | idle | keyed with that scheme, its key |
/// | [`finish`](Session::finish) | offered, with that scheme | keyed with that scheme, its key |
/// | [`close`](Session::close) | always | idle, key zero |
///
/// Any other call is refused with 10, [`Refusal::OutOfStage`], before anything
/// else is tested. A refused call leaves the session as it is.
///
/// It cannot be copied, and does not print its key; [`Session::key`] is the one
/// way in. The buffer is the caller's, so that moving a session leaves no copy of
/// it behind. One that a [`Rack`](crate::Rack) lends is not closed when it is dropped:
/// the rack keeps it.
///
/// The initiator's end, where `a`, `seed` and the secrets were drawn and `reply` is
/// what came back for the opening:
///
/// ```
/// use wimmostry::{Session, Stage, SESSION};
/// # use wimmostry::{Refusal, Scheme, Secret};
/// # fn end(a: &[u32], s: Secret, e: Secret, seed: &[u8], reply: &[u8]) -> Result<(), Refusal> {
/// let (mut bytes, mut opening) = ([0; SESSION], [0; 1824]);
/// let mut session = Session::new(&mut bytes);
/// let offered = session.offer(Scheme::NewHope, a, s, e, seed, &mut opening)?;
/// let linked = session.finish(offered.initiator, reply)?;
/// assert_eq!(session.stage(), Some(Stage::Keyed(Scheme::NewHope)));
/// println!("a key with the digest {}", linked.digest);
/// // session.key() is hashed with both messages and used, and then gone
/// session.close();
/// # Ok(())
/// # }
/// ```
#[must_use]
pub struct Session<'b> {
    pub(crate) bytes: &'b mut [u8; SESSION],
    /// By a rack, and so not closed when it is dropped. It is told here and not by
    /// a type around the session, so that it stays with the bytes when two sessions
    /// are swapped.
    kept: bool,
}

/// What a reply on a session gives; the key is in the session.
#[derive(Debug)]
#[must_use]
#[non_exhaustive]
pub struct Answered<'m> {
    /// The reply message, for the initiator.
    pub message: &'m [u8],
    /// The key's SHA3-256.
    pub digest: Digest,
}

/// What a finish on a session gives; the key is in the session.
#[derive(Clone, Copy, Debug, PartialEq, Eq)]
#[non_exhaustive]
pub struct Linked {
    /// The key's SHA3-256.
    pub digest: Digest,
    /// How near the exchange came to failing.
    pub slack: Slack,
}

/// A finish that was refused. The session is as it was, so the initiator comes
/// back with its s, for another reply or another session.
#[derive(Debug)]
#[must_use]
#[non_exhaustive]
pub struct Unfinished<'s> {
    /// Why.
    pub refusal: Refusal,
    /// The initiator, which still waits for a reply.
    pub initiator: Initiator<'s>,
}

impl From<Unfinished<'_>> for Refusal {
    /// The refusal alone; s is wiped.
    fn from(unfinished: Unfinished) -> Refusal {
        unfinished.refusal
    }
}

impl fmt::Display for Unfinished<'_> {
    fn fmt(&self, f: &mut fmt::Formatter) -> fmt::Result {
        self.refusal.fmt(f)
    }
}

impl core::error::Error for Unfinished<'_> {}

/// An offer on a session: s stays with the initiator.
pub(crate) fn offered<'s, 'm>(
    scheme: Scheme,
    s: Secret<'s>,
    message: &'m mut [u8],
    call: impl FnOnce(&[i32], &mut [u8]) -> Result<usize, Refusal>,
) -> Result<Offered<'s, 'm>, Refusal> {
    let written = call(s.entries(), message)?;
    Ok(Offered {
        initiator: Initiator { scheme, s },
        opening: &message[..written],
    })
}

/// A reply on a session, which keeps the key: what the call gives of it besides is
/// wiped.
pub(crate) fn answered(
    message: &mut [u8],
    call: impl FnOnce(&mut [u8], &mut [u8], &mut [u8]) -> Result<raw::Replied, Refusal>,
) -> Result<Answered<'_>, Refusal> {
    let (mut key, mut digest) = ([0; Sizes::LARGEST.key], [0; 32]);
    let mut key = Secret::new(&mut key);
    let written = call(message, key.entries_mut(), &mut digest)?;
    Ok(Answered {
        message: &message[..written.message],
        digest: Digest(digest),
    })
}

/// A finish on a session, likewise.
pub(crate) fn linked(
    initiator: Initiator<'_>,
    call: impl FnOnce(&[i32], &mut [u8], &mut [u8]) -> Result<raw::Finished, Refusal>,
) -> Result<Linked, Unfinished<'_>> {
    let (mut key, mut digest) = ([0; Sizes::LARGEST.key], [0; 32]);
    let mut key = Secret::new(&mut key);
    match call(initiator.s.entries(), key.entries_mut(), &mut digest) {
        Ok(written) => Ok(Linked {
            digest: Digest(digest),
            slack: written.slack,
        }),
        Err(refusal) => Err(Unfinished { refusal, initiator }),
    }
}

/// The key in the bytes of a session, once it is there.
pub(crate) fn key(session: &[u8]) -> Option<&[u8]> {
    match Stage::of(session)? {
        Stage::Keyed(scheme) => Some(&session[KEY..][..scheme.sizes().key]),
        Stage::Idle | Stage::Offered(_) => None,
    }
}

impl<'b> Session<'b> {
    /// An idle session: what the buffer holds is zeroed.
    pub fn new(bytes: &'b mut [u8; SESSION]) -> Session<'b> {
        let mut session = Session::resume(bytes);
        session.close();
        session
    }

    /// The session whose bytes the buffer holds, as they were kept. They may be
    /// any: such that no call leaves are in no stage.
    pub fn resume(bytes: &'b mut [u8; SESSION]) -> Session<'b> {
        Session { bytes, kept: false }
    }

    /// The session of a slot, which its rack keeps.
    pub(crate) fn kept(bytes: &'b mut [u8; SESSION]) -> Session<'b> {
        Session { bytes, kept: true }
    }

    /// Where the link stands; none where it was resumed from bytes that no call
    /// leaves.
    #[must_use]
    pub fn stage(&self) -> Option<Stage> {
        Stage::of(self.bytes)
    }

    /// The raw key, once it is there. Hash it, together with both messages,
    /// before use, and close the session.
    #[must_use]
    pub fn key(&self) -> Option<&[u8]> {
        key(self.bytes)
    }

    /// [`Initiator::offer`] when idle, which leads to offered with that scheme.
    /// The initiator that comes back holds s, for [`finish`](Session::finish).
    ///
    /// # Errors
    ///
    /// Refuses with 10, and then as [`Initiator::offer`] does. Both secrets are
    /// then wiped, and the session is as it was.
    pub fn offer<'s, 'm>(
        &mut self,
        scheme: Scheme,
        a: &[u32],
        s: Secret<'s>,
        e: Secret<'_>,
        seed: &[u8],
        message: &'m mut [u8],
    ) -> Result<Offered<'s, 'm>, Refusal> {
        let (number, e) = (scheme.number(), e.entries());
        offered(scheme, s, message, |s, message| {
            raw::session::offer(self.bytes, number, a, s, e, seed, message)
        })
    }

    /// [`Replier::reply`] when idle, which leads to keyed with the replier's
    /// scheme. The key stays in the session.
    ///
    /// # Errors
    ///
    /// Refuses with 10, and then as [`Replier::reply`] does. The secrets are wiped
    /// all the same, and the session is as it was.
    pub fn reply<'m>(
        &mut self,
        replier: Replier<'_>,
        opening: &[u8],
        a: &[u32],
        message: &'m mut [u8],
    ) -> Result<Answered<'m>, Refusal> {
        answered(message, |message, key, digest| {
            raw::session::reply(
                self.bytes,
                replier.scheme.number(),
                opening,
                a,
                replier.s1.entries(),
                replier.e1.entries(),
                replier.e2.entries(),
                replier.coins.entries(),
                message,
                key,
                digest,
            )
        })
    }

    /// [`Initiator::finish`] when offered with the initiator's scheme, which leads
    /// to keyed with that scheme. The key stays in the session, and s is wiped.
    ///
    /// # Errors
    ///
    /// Refuses with 10, and then as [`Initiator::finish`] does. The session is
    /// then as it was, and the initiator comes back, so that another reply can be
    /// tried.
    pub fn finish<'s>(
        &mut self,
        initiator: Initiator<'s>,
        reply: &[u8],
    ) -> Result<Linked, Unfinished<'s>> {
        let number = initiator.scheme.number();
        linked(initiator, |s, key, digest| {
            raw::session::finish(self.bytes, number, reply, s, key, digest)
        })
    }

    /// Zeroes the key, whatever the stage: the session is idle.
    pub fn close(&mut self) {
        raw::session::close(self.bytes);
    }
}

impl Drop for Session<'_> {
    fn drop(&mut self) {
        if !self.kept {
            wipe(self.bytes);
        }
    }
}

impl fmt::Debug for Session<'_> {
    fn fmt(&self, f: &mut fmt::Formatter) -> fmt::Result {
        write!(f, "Session({:?}, ..)", self.stage())
    }
}
