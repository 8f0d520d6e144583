//! The calls on slices, as they stand in the header: a scheme or a rule is a
//! number, every length is the caller's to get right, and secrets are the
//! caller's to wipe.
//!
//! Each function is one call of the archive. It scrubs the stack after it, as deep
//! as the call went, but for Expand, Grow and the settings, which are lent nothing
//! secret, and the parts of [`rows`], which leave that to the end. For
//! all inputs it ends with an answer or with one [`Refusal`]. After a success an
//! output holds the answer and zeros behind it, after a refusal zeros from end
//! to end, whatever it held.

use crate::{Refusal, Scheme};

/// What a call of the archive tells: the number of its refusal or 0, the place, and
/// its counts and other numbers.
struct Told<const N: usize> {
    number: u32,
    place: u64,
    numbers: [u64; N],
}

impl<const N: usize> Told<N> {
    /// The numbers, or the refusal.
    fn answer(self) -> Result<[u64; N], Refusal> {
        match self.number {
            0 => Ok(self.numbers),
            number => Err(Refusal::told(number, self.place)),
        }
    }
}

/// One call of the archive, which does not scrub: in the order of the header a slice
/// that is in and out, the numbers, the slices that are lent, the outputs; and what
/// is told besides the place.
macro_rules! ask {
    ($function:ident($($own:ident)?; $($number:ident),*; $($lent:ident),*; $($out:ident),*)
        $($told:ident),*) => {{
        let mut place = 0;
        $(let mut $told = 0;)*
        // SAFETY: each pointer and length are those of one slice, and the place and
        // the numbers told are of this frame. What the call changes is borrowed
        // mutably here, and so shares memory with nothing else. The compiler sees
        // to the types, and `runs/declared` to it that they are the header's.
        let number = unsafe {
            $crate::raw::ffi::$function(
                $($own.as_mut_ptr(), $own.len(),)?
                $($number,)*
                $($lent.as_ptr(), $lent.len(),)*
                $($out.as_mut_ptr(), $out.len(),)*
                &mut place,
                $(&mut $told,)*
            )
        };
        $crate::raw::Told { number, place, numbers: [$($told),*] }
    }};
}

/// `ask!`, and then the scrub of what it left on the stack.
macro_rules! call {
    ($function:ident $arguments:tt $($told:ident),*) => {{
        let told: $crate::raw::Told<_> = ask!($function $arguments $($told),*);
        $crate::raw::scrub_depth($crate::raw::stack::$function);
        told.answer()
    }};
}

pub mod ffi;
pub mod rack;
pub mod rows;
pub mod session;
mod stack;

/// How near an exchange came to failing, in BCNS and Frodo: how far the
/// initiator's value w (in BCNS twice it, around 2q) lies from the nearest value
/// that has the entry's hint. In NewHope it is 0 at index 0.
///
/// The replier's value lay at least so far away. Near
/// [`margin`](crate::Sizes::margin) it is a warning; a small one proves nothing.
#[derive(Clone, Copy, Debug, Default, PartialEq, Eq, Hash)]
pub struct Slack {
    /// The largest over all entries.
    pub largest: u64,
    /// The first entry that has it.
    pub index: usize,
}

impl Slack {
    fn of(largest: u64, index: u64) -> Slack {
        Slack {
            largest,
            index: count(index),
        }
    }
}

/// A count or an index: the archive keeps them in 64 bits, and is there for machines
/// of 64 bits alone.
pub(crate) fn count(n: u64) -> usize {
    n as usize
}

/// Overwrites what a call may have left of secrets on the stack below its caller,
/// whichever call it was. The functions here do so themselves; it is for callers of
/// [`ffi`].
///
/// It is always inlined: a frame of its own would be left out of what is
/// overwritten.
#[inline(always)]
pub fn scrub() {
    // SAFETY: it takes nothing, and writes only to the stack below its caller,
    // which no variable stands in. The header says how much of it must be there.
    #[cfg(not(wimmostry_unscrubbed))]
    unsafe {
        ffi::wim_scrub()
    }
}

/// [`scrub`] after a call that took some KiB of stack.
#[inline(always)]
fn scrub_depth(kib: usize) {
    // SAFETY: as in `scrub`.
    #[cfg(not(wimmostry_unscrubbed))]
    unsafe {
        ffi::wim_scrub_depth(kib << 10)
    }
    #[cfg(wimmostry_unscrubbed)]
    let _ = kib;
}

/// How many bytes of its outputs a reply took.
#[derive(Clone, Copy, Debug, PartialEq, Eq, Hash)]
#[non_exhaustive]
pub struct Replied {
    /// Of the reply message.
    pub message: usize,
    /// Of the key.
    pub key: usize,
    /// Of the key's digest.
    pub digest: usize,
}

impl Replied {
    fn of([message, key, digest]: [u64; 3]) -> Replied {
        Replied {
            message: count(message),
            key: count(key),
            digest: count(digest),
        }
    }
}

/// How many bytes of its outputs a finish took, and the [`Slack`].
#[derive(Clone, Copy, Debug, PartialEq, Eq, Hash)]
#[non_exhaustive]
pub struct Finished {
    /// Of the key.
    pub key: usize,
    /// Of the key's digest.
    pub digest: usize,
    /// How near the exchange came to failing.
    pub slack: Slack,
}

impl Finished {
    fn of([key, digest, slack, slack_index]: [u64; 4]) -> Finished {
        Finished {
            key: count(key),
            digest: count(digest),
            slack: Slack::of(slack, slack_index),
        }
    }
}

/// Offer: scheme, public a, secret s, noise e, seed. Gives the opening message
/// and how many bytes of `message` it takes.
///
/// # Errors
///
/// Refuses with 1, 2, 3, 4, 6 and 17.
pub fn offer(
    scheme: u32,
    a: &[u32],
    s: &[i32],
    e: &[i32],
    seed: &[u8],
    message: &mut [u8],
) -> Result<usize, Refusal> {
    let [written] = call!(wim_offer(; scheme; a, s, e, seed; message) written)?;
    Ok(count(written))
}

/// Reply: scheme, opening message, public a, s', e', e'', coins. Gives the
/// reply message, the replier's key and the key's SHA3-256, and how many bytes
/// of `message`, of `key` and of `digest` they take.
///
/// # Errors
///
/// Refuses with 1, 2, 3, 4, 5, 17 (the opening), 6 and 17 (the reply), in this
/// order; of 3, the message's room is tested first and the digest's last.
#[allow(clippy::too_many_arguments)]
pub fn reply(
    scheme: u32,
    opening: &[u8],
    a: &[u32],
    s1: &[i32],
    e1: &[i32],
    e2: &[i32],
    coins: &[u8],
    message: &mut [u8],
    key: &mut [u8],
    digest: &mut [u8],
) -> Result<Replied, Refusal> {
    let written = call!(wim_reply(; scheme; opening, a, s1, e1, e2, coins; message, key, digest)
        message_written, key_written, digest_written)?;
    Ok(Replied::of(written))
}

/// Finish: scheme, reply message, secret s. Gives the initiator's key and the
/// key's SHA3-256, how many bytes of `key` and of `digest` they take, and the
/// [`Slack`].
///
/// # Errors
///
/// Refuses with 1, 2, 3, 5, 17 and 6, in this order; of 3, the key's room is
/// tested first.
pub fn finish(
    scheme: u32,
    reply: &[u8],
    s: &[i32],
    key: &mut [u8],
    digest: &mut [u8],
) -> Result<Finished, Refusal> {
    let written = call!(wim_finish(; scheme; reply, s; key, digest)
        key_written, digest_written, slack, slack_index)?;
    Ok(Finished::of(written))
}

/// How many entries of its outputs an open took.
#[derive(Clone, Copy, Debug, PartialEq, Eq, Hash)]
#[non_exhaustive]
pub struct Opened {
    /// Bytes of the opening message.
    pub opening: usize,
    /// Values of s.
    pub s: usize,
}

impl Opened {
    fn of([opening, s]: [u64; 2]) -> Opened {
        Opened {
            opening: count(opening),
            s: count(s),
        }
    }
}

/// Open: scheme, rule ([`Rule`](crate::Rule)), public a, a table, random bytes.
/// Gives the opening message and the secret s: what [`offer`] gives on the seed, s
/// and e that the random bytes make. In NewHope a is empty, and grown by the rule.
///
/// # Errors
///
/// Refuses with 1, 12, 2, 3, 18, 4, 7 and 17, in this order; of 3, the message's
/// room is tested first.
pub fn open(
    scheme: u32,
    rule: u32,
    a: &[u32],
    table: &[u64],
    random: &[u8],
    opening: &mut [u8],
    s: &mut [i32],
) -> Result<Opened, Refusal> {
    let written = call!(wim_open(; scheme, rule; a, table, random; opening, s)
        opening_written, s_written)?;
    Ok(Opened::of(written))
}

/// Answer: scheme, rule, opening message, public a, a table, random bytes. Gives
/// what [`reply`] gives on the s', e', e'' and coins that the random bytes make. In
/// NewHope a is empty, and grown by the rule from the seed in the opening.
///
/// # Errors
///
/// Refuses with 1, 12, 2, 3, 18, 4, 5, 17 (the opening), 7 and 17 (the reply), in
/// this order; of 3, the message's room is tested first and the digest's last.
#[allow(clippy::too_many_arguments)]
pub fn answer(
    scheme: u32,
    rule: u32,
    opening: &[u8],
    a: &[u32],
    table: &[u64],
    random: &[u8],
    message: &mut [u8],
    key: &mut [u8],
    digest: &mut [u8],
) -> Result<Replied, Refusal> {
    let written = call!(
        wim_answer(; scheme, rule; opening, a, table, random; message, key, digest)
            message_written, key_written, digest_written)?;
    Ok(Replied::of(written))
}

/// Noise: scheme, random bytes, a table. Gives as many values as the bytes make,
/// which are those of s, e, s' or e' ([`s_bytes`](crate::Sizes::s_bytes)) or those
/// of e'' ([`e2_bytes`](crate::Sizes::e2_bytes)).
///
/// The table is BCNS's, 51 entries of three words each, the highest first, as
/// [`BCNS_TABLE`](crate::BCNS_TABLE) has them; the other schemes take an empty one.
///
/// # Errors
///
/// Refuses with 1, 2, 3 and 18, in this order.
pub fn noise(scheme: u32, bytes: &[u8], table: &[u64], out: &mut [i32]) -> Result<usize, Refusal> {
    let [written] = call!(wim_noise(; scheme; bytes, table; out) written)?;
    Ok(count(written))
}

/// Expand: rule ([`Rule`](crate::Rule)), a stream of bytes. Gives the first 1,024
/// numbers that the rule takes of it: NewHope's a.
///
/// # Errors
///
/// Refuses with 12, 2, 3 and 7.
pub fn expand(rule: u32, stream: &[u8], out: &mut [u32]) -> Result<usize, Refusal> {
    let [written] = ask!(wim_expand(; rule; stream; out) written).answer()?;
    Ok(count(written))
}

/// Grow: rule ([`Rule`](crate::Rule)), NewHope's seed. Gives what [`expand`] gives
/// of the first 24 blocks of 168 bytes of SHAKE-128 of the seed: NewHope's a.
///
/// # Errors
///
/// Refuses with 12, 2, 3 and 7.
pub fn grow(rule: u32, seed: &[u8], out: &mut [u32]) -> Result<usize, Refusal> {
    let [written] = ask!(wim_grow(; rule; seed; out) written).answer()?;
    Ok(count(written))
}

/// SHAKE-128: the input. Fills `out`, and tells its length.
///
/// # Errors
///
/// Refuses with 2.
pub fn shake128(input: &[u8], out: &mut [u8]) -> Result<usize, Refusal> {
    let [written] = call!(wim_shake128(; ; input; out) written)?;
    Ok(count(written))
}

/// SHA3-256: the input. Gives 32 bytes.
///
/// # Errors
///
/// Refuses with 2 and 3.
pub fn sha3_256(input: &[u8], out: &mut [u8]) -> Result<usize, Refusal> {
    let [written] = call!(wim_sha3_256(; ; input; out) written)?;
    Ok(count(written))
}

/// Product: a, b, two BCNS polynomials of a length L, which is 32 times a power
/// of two up to 1024. Gives their product modulo X^L + 1 and q, L numbers. The
/// scratch takes at least 6L numbers and is zero afterwards, refused or not.
///
/// ```
/// // (1 - X)(1 + X) = 1 - X^2, and -1 is q - 1
/// let (mut a, mut b, mut out, mut scratch) = ([0; 32], [0; 32], [0; 32], [0; 192]);
/// a[..2].copy_from_slice(&[1, 4294967294]);
/// b[..2].copy_from_slice(&[1, 1]);
/// assert_eq!(wimmostry::product(&a, &b, &mut out, &mut scratch), Ok(32));
/// assert_eq!(out[..4], [1, 0, 4294967294, 0]);
/// ```
///
/// # Errors
///
/// Refuses with 2, 3 (the output's room first, then the scratch's) and 4 (of a
/// first, then of b).
pub fn product(
    a: &[u32],
    b: &[u32],
    out: &mut [u32],
    scratch: &mut [u32],
) -> Result<usize, Refusal> {
    let [written] = call!(wim_product(; ; a, b; out, scratch) written)?;
    Ok(count(written))
}

/// What [`bench()`] finds of the two keys.
#[derive(Clone, Copy, Debug, PartialEq, Eq, Hash)]
pub enum Bench {
    /// The two keys are the same.
    Agree,
    /// The first differing bit, counted lowest first through the bytes. Never in
    /// BCNS: see [`BcnsBench`].
    Differ(usize),
}

/// What [`bench_bcns`] finds of the two keys. With secrets and noise from -51 to
/// 51 they are proved to agree, so that there is no differing case.
#[derive(Clone, Copy, Debug, PartialEq, Eq, Hash)]
pub enum BcnsBench {
    /// The two keys are the same.
    Agree,
}

impl From<BcnsBench> for Bench {
    fn from(found: BcnsBench) -> Bench {
        match found {
            BcnsBench::Agree => Bench::Agree,
        }
    }
}

/// Bench: both ends on lent secrets, the initiator's s, e and seed and the
/// replier's s', e', e'' and coins. Messages and keys stay inside. The [`Slack`]
/// is Finish's, whether the keys agree or differ. In BCNS they agree always:
/// [`bench_bcns`] has no other answer.
///
/// # Errors
///
/// Refuses with 1, 2, 4, 6 and 17; all of Offer's tests come first, then Reply's.
#[allow(clippy::too_many_arguments)]
pub fn bench(
    scheme: u32,
    a: &[u32],
    s: &[i32],
    e: &[i32],
    seed: &[u8],
    s1: &[i32],
    e1: &[i32],
    e2: &[i32],
    coins: &[u8],
) -> Result<(Bench, Slack), Refusal> {
    let [differ, slack, slack_index] = call!(
        wim_bench(; scheme; a, s, e, seed, s1, e1, e2, coins;) differ, slack, slack_index)?;
    let found = match count(differ) {
        0 => Bench::Agree,
        bit => Bench::Differ(bit - 1),
    };
    Ok((found, Slack::of(slack, slack_index)))
}

/// Bench in BCNS, whose keys cannot differ: agree or a refusal, and the [`Slack`].
///
/// # Errors
///
/// Refuses with 2 (also a seed that is not empty), 4, 6 and 17, as [`bench()`].
#[allow(clippy::too_many_arguments)]
pub fn bench_bcns(
    a: &[u32],
    s: &[i32],
    e: &[i32],
    seed: &[u8],
    s1: &[i32],
    e1: &[i32],
    e2: &[i32],
    coins: &[u8],
) -> Result<(BcnsBench, Slack), Refusal> {
    let (found, slack) = bench(Scheme::Bcns.number(), a, s, e, seed, s1, e1, e2, coins)?;
    debug_assert_eq!(found, Bench::Agree, "BCNS has no other answer");
    Ok((BcnsBench::Agree, slack))
}

/// What [`settings_read`] finds in a text.
#[derive(Clone, Copy, Debug, PartialEq, Eq, Hash)]
pub struct Read {
    /// How many bytes of the label were written.
    pub label: usize,
    /// The text's format, 1 or 2.
    pub format: u64,
    /// The scheme's number.
    pub scheme: u32,
    /// The rule's number.
    pub rule: u32,
}

/// Settings read: the reader's own number, 1 or 2, and a text. Gives the label,
/// which is empty in format 1, and the numbers.
///
/// Another number is no refusal: for 0 every format is newer, and one above 2
/// reads what 2 reads, and refuses by 8 the formats that there are not.
///
/// # Errors
///
/// Refuses with 15, which carries the newer format's number, with 8, and with 3
/// where `label` is shorter than the label in the text, in this order.
/// [`LABEL`](crate::LABEL) bytes are always enough, and a text in format 1 needs
/// none.
pub fn settings_read(reader: u32, text: &[u8], label: &mut [u8]) -> Result<Read, Refusal> {
    let told = ask!(wim_settings_read(; reader; text; label) label_written, format, scheme, rule);
    let [label, format, scheme, rule] = told.numbers;
    told.answer().map_err(|refusal| match refusal {
        Refusal::NewerFormat(_) => Refusal::NewerFormat(format),
        other => other,
    })?;
    Ok(Read {
        label: count(label),
        format,
        scheme: scheme as u32,
        rule: rule as u32,
    })
}

/// Settings write: scheme, rule, label, empty where there is none. Gives the text,
/// in the oldest format that holds them, and how many bytes it takes.
///
/// # Errors
///
/// Refuses with 1, 12, 2 (a label over 16 bytes), 3 and 8 (a byte of the label
/// that is no capital letter and no digit), in this order.
pub fn settings_write(
    scheme: u32,
    rule: u32,
    label: &[u8],
    text: &mut [u8],
) -> Result<usize, Refusal> {
    let [written] = ask!(wim_settings_write(; scheme, rule; label; text) written).answer()?;
    Ok(count(written))
}
