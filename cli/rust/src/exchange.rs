//! The two ends of an exchange, each of which takes its secrets for good.

use crate::raw::Slack;
use crate::{raw, Digest, Key, Refusal, Scheme, Secret};

/// The initiator after its offer: it holds s until [`finish`](Initiator::finish)
/// takes it, or until it is dropped. Either wipes s.
///
/// A secret used twice does not compile:
///
/// ```compile_fail,E0382
/// # use wimmostry::{Initiator, Refusal, Scheme, Secret};
/// # fn twice(a: &[u32], s: Secret, e: Secret, seed: &[u8]) -> Result<(), Refusal> {
/// let (mut one, mut other) = ([0; 1824], [0; 1824]);
/// Initiator::offer(Scheme::NewHope, a, s, e, seed, &mut one)?;
/// Initiator::offer(Scheme::NewHope, a, s, e, seed, &mut other)?;
/// # Ok(())
/// # }
/// ```
///
/// Nor does an initiator that finishes twice:
///
/// ```compile_fail,E0382
/// # use wimmostry::{Initiator, Refusal};
/// # fn twice(initiator: Initiator, reply: &[u8]) -> Result<(), Refusal> {
/// let (mut one, mut other) = ([0; 32], [0; 32]);
/// initiator.finish(reply, &mut one)?;
/// initiator.finish(reply, &mut other)?;
/// # Ok(())
/// # }
/// ```
#[derive(Debug)]
#[must_use]
pub struct Initiator<'s> {
    pub(crate) scheme: Scheme,
    pub(crate) s: Secret<'s>,
}

/// What an offer gives.
#[derive(Debug)]
#[must_use]
#[non_exhaustive]
pub struct Offered<'s, 'm> {
    /// The initiator, which waits for the reply.
    pub initiator: Initiator<'s>,
    /// The opening message, for the replier.
    pub opening: &'m [u8],
}

/// What the initiator has in the end.
#[derive(Debug)]
#[must_use]
#[non_exhaustive]
pub struct Finished<'k> {
    /// The initiator's key.
    pub key: Key<'k>,
    /// Its SHA3-256.
    pub digest: Digest,
    /// How near the exchange came to failing.
    pub slack: Slack,
}

impl<'s> Initiator<'s> {
    /// Offer: public a, secret s, noise e, seed. Writes the opening message to
    /// `message`, which may be longer. e is wiped, s is kept.
    ///
    /// # Errors
    ///
    /// Refuses with 2, 3, 4, 6 and 17, the last where the opening would be blank.
    /// Both secrets are then wiped.
    pub fn offer<'m>(
        scheme: Scheme,
        a: &[u32],
        s: Secret<'s>,
        e: Secret<'_>,
        seed: &[u8],
        message: &'m mut [u8],
    ) -> Result<Offered<'s, 'm>, Refusal> {
        let number = scheme.number();
        let written = raw::offer(number, a, s.entries(), e.entries(), seed, message)?;
        Ok(Offered {
            initiator: Initiator { scheme, s },
            opening: &message[..written],
        })
    }

    /// The scheme of the exchange.
    #[must_use]
    pub fn scheme(&self) -> Scheme {
        self.scheme
    }

    /// An initiator whose offer was made by rows.
    pub(crate) fn offered(scheme: Scheme, s: Secret<'s>) -> Initiator<'s> {
        Initiator { scheme, s }
    }

    /// Finish: reply message. Writes the initiator's key to `key`, which may be
    /// longer, and gives its digest and the slack. s is wiped.
    ///
    /// # Errors
    ///
    /// Refuses with 2, 3, 5 and 17, the last where the reply is blank; with 6
    /// never, since the offer has tested s. s is wiped, and the exchange is over.
    pub fn finish<'k>(self, reply: &[u8], key: &'k mut [u8]) -> Result<Finished<'k>, Refusal> {
        let mut digest = [0; 32];
        let written = raw::finish(
            self.scheme.number(),
            reply,
            self.s.entries(),
            key,
            &mut digest,
        )?;
        Ok(Finished {
            key: Key::new(&mut key[..written.key]),
            digest: Digest(digest),
            slack: written.slack,
        })
    }
}

/// The replier with its secrets, before the opening has come.
///
/// It replies once:
///
/// ```compile_fail,E0382
/// # use wimmostry::{Refusal, Replier};
/// # fn twice(replier: Replier, opening: &[u8], a: &[u32]) -> Result<(), Refusal> {
/// let (mut message, mut key) = ([0; 2048], [0; 32]);
/// replier.reply(opening, a, &mut message, &mut key)?;
/// replier.reply(opening, a, &mut message, &mut key)?;
/// # Ok(())
/// # }
/// ```
#[derive(Debug)]
#[must_use]
pub struct Replier<'s> {
    pub(crate) scheme: Scheme,
    pub(crate) s1: Secret<'s>,
    pub(crate) e1: Secret<'s>,
    pub(crate) e2: Secret<'s>,
    pub(crate) coins: Secret<'s, u8>,
}

/// What a reply gives.
#[derive(Debug)]
#[must_use]
#[non_exhaustive]
pub struct Replied<'m, 'k> {
    /// The reply message, for the initiator.
    pub message: &'m [u8],
    /// The replier's key.
    pub key: Key<'k>,
    /// Its SHA3-256.
    pub digest: Digest,
}

impl<'s> Replier<'s> {
    /// The secret s', the noise e' and e'', and the coins, which are empty in
    /// Frodo. They are tested by [`reply`](Replier::reply).
    pub fn new(
        scheme: Scheme,
        s1: Secret<'s>,
        e1: Secret<'s>,
        e2: Secret<'s>,
        coins: Secret<'s, u8>,
    ) -> Replier<'s> {
        Replier {
            scheme,
            s1,
            e1,
            e2,
            coins,
        }
    }

    /// The scheme of the exchange.
    #[must_use]
    pub fn scheme(&self) -> Scheme {
        self.scheme
    }

    /// Reply: opening message, public a. Writes the reply message and the
    /// replier's key to `message` and `key`, which may be longer, and gives the
    /// key's digest. The secrets are wiped.
    ///
    /// # Errors
    ///
    /// Refuses with 2, 3, 4, 5, 17, 6 and 17, in this order: first where the
    /// opening is blank, last where the reply would be. The secrets are wiped all
    /// the same.
    pub fn reply<'m, 'k>(
        self,
        opening: &[u8],
        a: &[u32],
        message: &'m mut [u8],
        key: &'k mut [u8],
    ) -> Result<Replied<'m, 'k>, Refusal> {
        let mut digest = [0; 32];
        let written = raw::reply(
            self.scheme.number(),
            opening,
            a,
            self.s1.entries(),
            self.e1.entries(),
            self.e2.entries(),
            self.coins.entries(),
            message,
            key,
            &mut digest,
        )?;
        Ok(Replied {
            message: &message[..written.message],
            key: Key::new(&mut key[..written.key]),
            digest: Digest(digest),
        })
    }
}
