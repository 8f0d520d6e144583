//! Key exchange by BCNS, NewHope and Frodo, over the proved library Wimmostry.
//!
//! Two boxes agree on a fresh key:
//!
//! ```text
//! the initiator                        the replier
//! Initiator::open(random)   opening -->
//!                          <-- reply   Replier::answer(opening, random)
//! initiator.finish(reply)              has the key and its digest
//! has the key and its digest
//! ```
//!
//! Both know the public numbers a; NewHope's grow from a seed, which travels in the
//! opening. Secrets, noise and coins are made of random bytes, afresh for each exchange.
//! A [`Secret`] is a lent buffer that is wiped when its owner is done with it; each call
//! takes its secrets for good, so that one used twice does not compile. A [`Key`] is wiped
//! likewise, and neither prints what it holds. The [`Digest`] beside a key is its SHA3-256,
//! which can be shown. A [`Session`] keeps one end in step and holds its key, a [`Rack`] the
//! sessions of eight studios.
//!
//! Both ends by NewHope, where `fill` fills a buffer with random bytes:
//!
//! ```
//! use wimmostry::{fixed::NewHope, Initiator, Refusal, Replier, Rule};
//!
//! # fn main() -> Result<(), Refusal> {
//! # let mut state = 1u64;
//! # let mut fill = |bytes: &mut [u8]| for byte in bytes {
//! #     state = state.wrapping_mul(6364136223846793005).wrapping_add(1442695040888963407);
//! #     *byte = (state >> 56) as u8;
//! # };
//! let (rule, mut s, mut opening) = (Rule::LowBits, [0; 1024], [0; 1824]);
//! let initiator = Initiator::open::<NewHope>(rule, |_| &[], &mut fill, &mut s, &mut opening)?;
//!
//! let (mut reply, mut key) = ([0; 2048], [0; 32]);
//! let replied = Replier::answer::<NewHope>(rule, &opening, &[], fill, &mut reply, &mut key)?;
//!
//! let mut peer_key = [0; 32];
//! let finished = initiator.finish(replied.message, &mut peer_key)?;
//! assert_eq!(finished.digest, replied.digest);
//! # Ok(())
//! # }
//! ```
//!
//! [`fixed`] has the arrays of each scheme. [`Initiator::offer`] and [`Replier::reply`] take
//! secrets that the caller made, as by [`Secret::noise`], with the public numbers, as by
//! [`grow`].
//!
//! Frodo's A need not be held: [`rows`] has Offer and Reply that take it row by
//! row.
//!
//! Below it, [`raw`] has the calls on slices. Either way a call is one of the
//! archive, whose every call is proved: for all inputs it ends with an answer or
//! with one [`Refusal`], given exactly when its condition holds.
//!
//! What a caller must see to is in `include/wimmostry.h`: fresh secrets, who
//! the peer is, key confirmation, hashing the raw keys, and 209 KiB of stack; [`fixed`]
//! takes the random bytes on it besides, 76 KiB at most.
//! That buffers do not overlap and pointers are valid, these functions see to;
//! and after every call that was lent a secret, by rows at the end, they scrub the
//! stack as deep as the call went.
//!
//! # Panics
//!
//! No function panics, whatever it is lent: what is wrong is told by a [`Refusal`].
//!
//! The library needs no `std` and takes no memory from a heap: buffers are lent.
//! [`Sizes::LARGEST`] has room for every scheme.
#![no_std]
#![warn(missing_docs)]
#![warn(
    clippy::missing_errors_doc,
    clippy::missing_panics_doc,
    clippy::must_use_candidate
)]

pub mod raw;

mod exchange;
mod expand;
pub mod fixed;
mod hash;
mod rack;
mod refusal;
pub mod rows;
mod schemes;
mod secret;
mod session;
mod settings;

pub use exchange::{Finished, Initiator, Offered, Replied, Replier};
pub use expand::{expand, grow, Rule, EXPAND_NUMBERS, EXPAND_STREAM};
pub use hash::{sha3_256, shake128, Digest, HASH_INPUT};
pub use rack::{Rack, Studio, RACK, RECORD};
pub use raw::{product, scrub, Slack};
pub use refusal::Refusal;
pub use schemes::{Scheme, Sizes};
pub use secret::{same, wipe, Entry, Key, Secret};
pub use session::{Answered, Linked, Session, Stage, Unfinished, SESSION};
pub use settings::{Format, Label, Settings, LABEL, SETTINGS_TEXT};

/// The version of the archive that is linked, which is this package's.
#[must_use]
pub fn version() -> &'static str {
    // SAFETY: a constant text of the archive, which ends with a zero: digits and dots.
    let text = unsafe { core::ffi::CStr::from_ptr(raw::ffi::wim_version_0_4_0.as_ptr()) };
    text.to_str().unwrap_or_default()
}

/// The level of processors that the archive was compiled for: `x86-64`,
/// `x86-64-v3` or `aarch64`. On a processor without it no other function may be
/// called.
#[must_use]
pub fn cpu() -> &'static str {
    // SAFETY: it takes nothing and gives a constant text that ends with a zero:
    // letters, digits and dashes.
    let text = unsafe { core::ffi::CStr::from_ptr(raw::ffi::wim_cpu()) };
    text.to_str().unwrap_or_default()
}

/// The table by which BCNS's paper draws noise, for [`Secret::noise`] and
/// [`raw::noise`]: 51 entries of three words, the highest first.
// SAFETY: a constant of the archive.
pub static BCNS_TABLE: &[u64; 153] = unsafe { &raw::ffi::wim_bcns_table };
