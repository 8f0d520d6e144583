//! The sessions of eight studios.

use crate::session::{answered, key, linked, offered, Answered, Linked, Unfinished, SESSION};
use crate::{raw, Initiator, Offered, Refusal, Replier, Scheme, Secret, Session, Stage};
use core::fmt;

/// Bytes of a record: the number of its studio, and a session.
pub const RECORD: usize = 1 + SESSION;

/// Bytes of a rack: a record for each studio.
pub const RACK: usize = Studio::ALL.len() * RECORD;

/// A studio of a rack, 0 to 7.
#[derive(Clone, Copy, Debug, PartialEq, Eq, PartialOrd, Ord, Hash)]
pub struct Studio(u8);

impl Studio {
    /// All of them, in the order of their numbers.
    pub const ALL: [Studio; 8] = [
        Studio(0),
        Studio(1),
        Studio(2),
        Studio(3),
        Studio(4),
        Studio(5),
        Studio(6),
        Studio(7),
    ];

    /// The number by which a call knows the studio, 0 to 7.
    #[must_use]
    pub const fn number(self) -> u32 {
        self.0 as u32
    }

    /// Its place among all of them.
    const fn slot(self) -> usize {
        self.0 as usize
    }
}

impl TryFrom<u32> for Studio {
    type Error = Refusal;

    /// The studio of a number, or refusal 16.
    fn try_from(number: u32) -> Result<Studio, Refusal> {
        let known = usize::try_from(number)
            .ok()
            .and_then(|k| Studio::ALL.get(k));
        known.copied().ok_or(Refusal::NoStudio)
    }
}

impl fmt::Display for Studio {
    fn fmt(&self, f: &mut fmt::Formatter) -> fmt::Result {
        self.0.fmt(f)
    }
}

/// A rack in a lent buffer: a [`Session`] for each of eight studios, at its own
/// fixed slot. It is cleared, and so every key wiped, when it is dropped.
///
/// The table of [`Session`] holds in each slot separately: a call for one studio
/// changes no byte of another slot, and none of those decides what it gives. A call
/// on a rack lends all of it. [`sessions`](Rack::sessions) lends its eight sessions
/// one by one instead, so that eight threads can serve eight studios at once:
///
/// ```
/// use wimmostry::{Rack, Stage, Studio, RACK};
/// let mut bytes = [0; RACK];
/// let mut rack = Rack::new(&mut bytes);
/// std::thread::scope(|threads| {
///     for (studio, mut session) in Studio::ALL.into_iter().zip(rack.sessions()) {
///         threads.spawn(move || {
///             // here the thread serves this studio: session.offer(..) and so on
///             assert_eq!(session.stage(), Some(Stage::Idle), "studio {studio}");
///             session.close();
///         });
///     }
/// });
/// ```
#[must_use]
pub struct Rack<'b>(&'b mut [u8; RACK]);

impl<'b> Rack<'b> {
    /// An empty rack: what the buffer holds is cleared.
    pub fn new(bytes: &'b mut [u8; RACK]) -> Rack<'b> {
        let mut rack = Rack(bytes);
        rack.clear();
        rack
    }

    /// The rack whose bytes the buffer holds, as they were kept. They may be any:
    /// a slot with another studio's number is refused with 10 until it is closed.
    pub fn resume(bytes: &'b mut [u8; RACK]) -> Rack<'b> {
        Rack(bytes)
    }

    /// The session's bytes, where the slot has its number.
    fn bytes(&self, studio: Studio) -> Option<&[u8]> {
        let (number, session) = self.0[studio.slot() * RECORD..][..RECORD].split_first()?;
        (*number == studio.0).then_some(session)
    }

    /// Where a studio's link stands; none where its slot was resumed from bytes
    /// that no call leaves.
    #[must_use]
    pub fn stage(&self, studio: Studio) -> Option<Stage> {
        Stage::of(self.bytes(studio)?)
    }

    /// A studio's raw key, once it is there.
    #[must_use]
    pub fn key(&self, studio: Studio) -> Option<&[u8]> {
        key(self.bytes(studio)?)
    }

    /// [`Session::offer`] for a studio.
    ///
    /// # Errors
    ///
    /// As [`Session::offer`]; the rack is then as it was.
    #[allow(clippy::too_many_arguments)]
    pub fn offer<'s, 'm>(
        &mut self,
        studio: Studio,
        scheme: Scheme,
        a: &[u32],
        s: Secret<'s>,
        e: Secret<'_>,
        seed: &[u8],
        message: &'m mut [u8],
    ) -> Result<Offered<'s, 'm>, Refusal> {
        let (studio, number, e) = (studio.number(), scheme.number(), e.entries());
        offered(scheme, s, message, |s, message| {
            raw::rack::offer(self.0, studio, number, a, s, e, seed, message)
        })
    }

    /// [`Session::reply`] for a studio.
    ///
    /// # Errors
    ///
    /// As [`Session::reply`]; the rack is then as it was.
    pub fn reply<'m>(
        &mut self,
        studio: Studio,
        replier: Replier<'_>,
        opening: &[u8],
        a: &[u32],
        message: &'m mut [u8],
    ) -> Result<Answered<'m>, Refusal> {
        answered(message, |message, key, digest| {
            raw::rack::reply(
                self.0,
                studio.number(),
                replier.scheme.number(),
                opening,
                a,
                replier.s1.entries(),
                replier.e1.entries(),
                replier.e2.entries(),
                replier.coins.entries(),
                message,
                key,
                digest,
            )
        })
    }

    /// [`Session::finish`] for a studio.
    ///
    /// # Errors
    ///
    /// As [`Session::finish`]; the rack is then as it was.
    pub fn finish<'s>(
        &mut self,
        studio: Studio,
        initiator: Initiator<'s>,
        reply: &[u8],
    ) -> Result<Linked, Unfinished<'s>> {
        let number = initiator.scheme.number();
        linked(initiator, |s, key, digest| {
            raw::rack::finish(self.0, studio.number(), number, reply, s, key, digest)
        })
    }

    /// Leaves the studio's number in its slot and zeros behind it.
    pub fn close(&mut self, studio: Studio) {
        let closed = raw::rack::close(self.0, studio.number());
        debug_assert!(closed.is_ok(), "a studio, and a rack of its length");
    }

    /// Closes all eight.
    pub fn clear(&mut self) {
        let cleared = raw::rack::clear(self.0);
        debug_assert!(cleared.is_ok(), "a rack of its length");
    }

    /// One studio's session, which the rack keeps when it is dropped.
    pub fn session(&mut self, studio: Studio) -> Session<'_> {
        session_in(&mut self.0[studio.slot() * RECORD..][..RECORD])
    }

    /// All eight sessions, in the order of the studios, each to be lent to a thread
    /// of its own. The rack keeps them when they are dropped.
    pub fn sessions(&mut self) -> [Session<'_>; Studio::ALL.len()] {
        let mut rest = &mut self.0[..];
        Studio::ALL.map(|_| {
            let (record, behind) = core::mem::take(&mut rest).split_at_mut(RECORD);
            rest = behind;
            session_in(record)
        })
    }
}

/// The session in a record, behind the studio's number.
fn session_in(record: &mut [u8]) -> Session<'_> {
    Session::kept(record.last_chunk_mut().expect("a record has a session"))
}

impl Drop for Rack<'_> {
    fn drop(&mut self) {
        self.clear();
    }
}

impl fmt::Debug for Rack<'_> {
    fn fmt(&self, f: &mut fmt::Formatter) -> fmt::Result {
        let stages = Studio::ALL.map(|studio| self.stage(studio));
        write!(f, "Rack({stages:?}, ..)")
    }
}
