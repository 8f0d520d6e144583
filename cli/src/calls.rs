//! All that is used of the package `wimmostry`, and of it nothing is used
//! elsewhere: each call on a list of inputs and a list of outputs, in the order
//! in which the command names them.

use crate::data::{Data, Wiped};
use wimmostry::{raw, Digest, Format, Refusal, Rule, Scheme, Stage};

pub use wimmostry::raw::Bench;
pub use wimmostry::{Sizes, Slack, SESSION};

/// What a call answered.
pub struct Answer {
    /// How many entries of each output.
    pub written: Vec<usize>,
    /// Of bench, whether the two keys agree.
    pub keys: Option<Bench>,
    /// Of finish and bench, how near the exchange came to failing.
    pub slack: Option<Slack>,
}

impl Answer {
    fn written(written: &[usize]) -> Answer {
        Answer {
            written: written.to_vec(),
            keys: None,
            slack: None,
        }
    }
}

/// A refusal by its number and its place.
#[derive(Clone, Copy)]
pub struct Refused {
    pub number: u32,
    pub place: usize,
}

/// What was asked for: the scheme's number, the rule's or a length; the inputs,
/// the outputs.
pub type Call = fn(u32, &[&Data], &mut [Data]) -> Result<Answer, Refused>;

/// A call on the bytes of a session, which come first; then as in [`Call`].
pub type SessionCall = fn(&mut [u8], u32, &[&Data], &mut [Data]) -> Result<Answer, Refused>;

pub const EXPAND_NUMBERS: usize = wimmostry::EXPAND_NUMBERS;
pub const EXPAND_STREAM: usize = wimmostry::EXPAND_STREAM;
pub const HASH_INPUT: usize = wimmostry::HASH_INPUT;
pub const SETTINGS_TEXT: usize = wimmostry::SETTINGS_TEXT;
pub const LABEL: usize = wimmostry::LABEL;

/// Bytes of NewHope's seed and of a digest.
pub const GROW_SEED: usize = Scheme::NewHope.sizes().seed;
pub const DIGEST: usize = std::mem::size_of::<Digest>();

/// What the command line says of itself.
pub fn version() -> &'static str {
    wimmostry::version()
}

/// How many schemes there are: they are numbered from 0.
pub const SCHEMES: u32 = Scheme::ALL.len() as u32;

fn named(scheme: u32) -> Option<Scheme> {
    Scheme::ALL.get(usize::try_from(scheme).ok()?).copied()
}

pub fn name(scheme: u32) -> Option<&'static str> {
    Some(named(scheme)?.name())
}

/// The fixed numbers of a scheme, where there is such a scheme.
pub fn sizes(scheme: u32) -> Option<Sizes> {
    Some(named(scheme)?.sizes())
}

/// The rules' numbers and names.
pub fn rules() -> [(u32, &'static str); 2] {
    Rule::ALL.map(|rule| (rule.number(), rule.name()))
}

/// The rule that every box knows.
pub const LOW_BITS: u32 = Rule::LowBits.number();

/// The library's sentence for a refusal.
pub fn sentence(number: u32) -> &'static str {
    extern "C" {
        fn wim_refusal_text(number: u32) -> *const std::ffi::c_char;
    }
    // SAFETY: any number is taken, and a constant text comes back that ends with a
    // zero.
    let text = unsafe { std::ffi::CStr::from_ptr(wim_refusal_text(number)) };
    text.to_str().unwrap_or_default()
}

/// The end of every call: the stack is scrubbed before anything else is done.
/// Inlined, so that no frame of its own covers what is to be overwritten.
#[inline(always)]
fn ended(done: Result<Answer, Refusal>) -> Result<Answer, Refused> {
    wimmostry::scrub();
    done.map_err(refused)
}

fn refused(refusal: Refusal) -> Refused {
    Refused {
        number: refusal.number(),
        place: refusal.place(),
    }
}

/// The outputs of a call that has several.
fn several<const N: usize>(out: &mut [Data]) -> &mut [Data; N] {
    out.try_into().expect("as many as the table has")
}

pub fn offer(scheme: u32, given: &[&Data], out: &mut [Data]) -> Result<Answer, Refused> {
    let done = raw::offer(
        scheme,
        given[0].numbers(),
        given[1].values(),
        given[2].values(),
        given[3].bytes(),
        out[0].bytes_mut(),
    );
    ended(done.map(|n| Answer::written(&[n])))
}

pub fn reply(scheme: u32, given: &[&Data], out: &mut [Data]) -> Result<Answer, Refused> {
    let [message, key, digest] = several(out);
    let done = raw::reply(
        scheme,
        given[0].bytes(),
        given[1].numbers(),
        given[2].values(),
        given[3].values(),
        given[4].values(),
        given[5].bytes(),
        message.bytes_mut(),
        key.bytes_mut(),
        digest.bytes_mut(),
    );
    ended(done.map(|n| Answer::written(&[n.message, n.key, n.digest])))
}

/// A state by rows, which is zeroed when it is dropped; empty but in Frodo.
fn state(scheme: u32) -> Wiped<u32> {
    Wiped::zeros(sizes(scheme).map_or(0, |sizes| sizes.state))
}

/// Numbers in a row.
fn row(scheme: u32) -> usize {
    sizes(scheme).map_or(0, |sizes| sizes.row)
}

pub fn rows_offer(scheme: u32, given: &[&Data], out: &mut [Data]) -> Result<Answer, Refused> {
    let (mut state, a) = (state(scheme), given[0].rows());
    let begun = raw::rows::offer_begin(
        scheme,
        given[1].values(),
        given[2].values(),
        given[3].bytes(),
        &mut state,
    );
    let done = begun
        .and_then(|()| a.each(row(scheme), |part| raw::rows::offer_part(part, &mut state)))
        .and_then(|()| raw::rows::offer_end(&mut state, out[0].bytes_mut()));
    ended(done.map(|n| Answer::written(&[n])))
}

pub fn rows_reply(scheme: u32, given: &[&Data], out: &mut [Data]) -> Result<Answer, Refused> {
    let [message, key, digest] = several(out);
    let (mut state, a) = (state(scheme), given[1].rows());
    let begun = raw::rows::reply_begin(
        scheme,
        given[0].bytes(),
        given[2].values(),
        given[3].values(),
        given[4].values(),
        &mut state,
    );
    let done = begun
        .and_then(|()| a.each(row(scheme), |part| raw::rows::reply_part(part, &mut state)))
        .and_then(|()| {
            let (m, k, d) = (message.bytes_mut(), key.bytes_mut(), digest.bytes_mut());
            raw::rows::reply_end(&mut state, m, k, d)
        });
    ended(done.map(|n| Answer::written(&[n.message, n.key, n.digest])))
}

pub fn finish(scheme: u32, given: &[&Data], out: &mut [Data]) -> Result<Answer, Refused> {
    let [key, digest] = several(out);
    let done = raw::finish(
        scheme,
        given[0].bytes(),
        given[1].values(),
        key.bytes_mut(),
        digest.bytes_mut(),
    );
    ended(done.map(|n| Answer {
        slack: Some(n.slack),
        ..Answer::written(&[n.key, n.digest])
    }))
}

pub fn session_offer(
    session: &mut [u8],
    scheme: u32,
    given: &[&Data],
    out: &mut [Data],
) -> Result<Answer, Refused> {
    let done = raw::session::offer(
        session,
        scheme,
        given[0].numbers(),
        given[1].values(),
        given[2].values(),
        given[3].bytes(),
        out[0].bytes_mut(),
    );
    ended(done.map(|n| Answer::written(&[n])))
}

pub fn session_reply(
    session: &mut [u8],
    scheme: u32,
    given: &[&Data],
    out: &mut [Data],
) -> Result<Answer, Refused> {
    let [message, key, digest] = several(out);
    let done = raw::session::reply(
        session,
        scheme,
        given[0].bytes(),
        given[1].numbers(),
        given[2].values(),
        given[3].values(),
        given[4].values(),
        given[5].bytes(),
        message.bytes_mut(),
        key.bytes_mut(),
        digest.bytes_mut(),
    );
    ended(done.map(|n| Answer::written(&[n.message, n.key, n.digest])))
}

pub fn session_finish(
    session: &mut [u8],
    scheme: u32,
    given: &[&Data],
    out: &mut [Data],
) -> Result<Answer, Refused> {
    let [key, digest] = several(out);
    let done = raw::session::finish(
        session,
        scheme,
        given[0].bytes(),
        given[1].values(),
        key.bytes_mut(),
        digest.bytes_mut(),
    );
    ended(done.map(|n| Answer {
        slack: Some(n.slack),
        ..Answer::written(&[n.key, n.digest])
    }))
}

/// What the calls from random bytes on a session are lent: the scheme's number, the
/// rule's, the public numbers, which NewHope has none of, and the random bytes. BCNS's
/// table is the archive's.
pub struct Drawn<'a> {
    pub scheme: u32,
    pub rule: u32,
    pub a: &'a [u32],
    pub random: &'a [u8],
}

impl Drawn<'_> {
    fn table(&self) -> &'static [u64] {
        &wimmostry::BCNS_TABLE[..sizes(self.scheme).map_or(0, |sizes| sizes.table)]
    }
}

/// The opening, and s.
pub fn session_open(
    session: &mut [u8],
    lent: &Drawn,
    opening: &mut Data,
    s: &mut Data,
) -> Result<Answer, Refused> {
    let done = raw::session::open(
        session,
        lent.scheme,
        lent.rule,
        lent.a,
        lent.table(),
        lent.random,
        opening.bytes_mut(),
        s.values_mut(),
    );
    ended(done.map(|n| Answer::written(&[n.opening, n.s])))
}

/// The reply; the key stays in the session.
pub fn session_answer(
    session: &mut [u8],
    lent: &Drawn,
    opening: &Data,
    reply: &mut Data,
) -> Result<Answer, Refused> {
    let (mut key, mut digest) = (Wiped::zeros(SESSION_KEY), Wiped::zeros(DIGEST));
    let done = raw::session::answer(
        session,
        lent.scheme,
        lent.rule,
        opening.bytes(),
        lent.a,
        lent.table(),
        lent.random,
        reply.bytes_mut(),
        &mut key,
        &mut digest,
    );
    ended(done.map(|n| Answer::written(&[n.message])))
}

/// The key of a session that is keyed, and its digest.
pub fn session_key(
    session: &mut [u8],
    _: u32,
    _: &[&Data],
    out: &mut [Data],
) -> Result<Answer, Refused> {
    let key = key(session).ok_or_else(|| refused(Refusal::OutOfStage))?;
    let [raw_key, digest] = several(out);
    raw_key.bytes_mut()[..key.len()].copy_from_slice(key);
    let done = raw::sha3_256(key, digest.bytes_mut());
    let n = key.len();
    ended(done.map(|d| Answer::written(&[n, d])))
}

/// For a command that there is on a session alone.
pub fn no_session(_: u32, _: &[&Data], _: &mut [Data]) -> Result<Answer, Refused> {
    Err(refused(Refusal::OutOfStage))
}

/// Bytes of the longest key, and where a session has it.
pub const SESSION_KEY: usize = Sizes::LARGEST.key;
const KEY_AT: usize = SESSION - SESSION_KEY;

/// The key of a session that is keyed.
pub fn key(session: &[u8]) -> Option<&[u8]> {
    match Stage::of(session)? {
        Stage::Keyed(scheme) => Some(&session[KEY_AT..][..scheme.sizes().key]),
        Stage::Idle | Stage::Offered(_) => None,
    }
}

/// The name of a session's stage and the number of its scheme, if it has one;
/// nothing where the bytes are in no stage.
pub fn stage(session: &[u8]) -> Option<(&'static str, Option<u32>)> {
    let stage = Stage::of(session)?;
    Some((stage.name(), stage.scheme().map(Scheme::number)))
}

/// The names of the stages.
pub const IDLE: &str = Stage::Idle.name();
pub const OFFERED: &str = Stage::Offered(Scheme::Bcns).name();
pub const KEYED: &str = Stage::Keyed(Scheme::Bcns).name();

/// The refusal of a call that the stage does not allow.
pub const OUT_OF_STAGE: u32 = Refusal::OutOfStage.number();

pub fn noise(scheme: u32, given: &[&Data], out: &mut [Data]) -> Result<Answer, Refused> {
    let done = raw::noise(
        scheme,
        given[0].bytes(),
        given[1].words(),
        out[0].values_mut(),
    );
    ended(done.map(|n| Answer::written(&[n])))
}

pub fn expand(rule: u32, given: &[&Data], out: &mut [Data]) -> Result<Answer, Refused> {
    let done = raw::expand(rule, given[0].bytes(), out[0].numbers_mut());
    ended(done.map(|n| Answer::written(&[n])))
}

pub fn grow(rule: u32, given: &[&Data], out: &mut [Data]) -> Result<Answer, Refused> {
    let done = raw::grow(rule, given[0].bytes(), out[0].numbers_mut());
    ended(done.map(|n| Answer::written(&[n])))
}

pub fn shake128(_: u32, given: &[&Data], out: &mut [Data]) -> Result<Answer, Refused> {
    let done = raw::shake128(given[0].bytes(), out[0].bytes_mut());
    ended(done.map(|n| Answer::written(&[n])))
}

/// The SHA3-256 of what is no longer than both messages and a key.
pub fn digest(input: &[u8]) -> Wiped<u8> {
    let mut digest = Wiped::zeros(DIGEST);
    let done = raw::sha3_256(input, &mut digest);
    debug_assert!(done.is_ok(), "it is short");
    digest
}

/// Fills a buffer with the SHAKE-128 of a short input.
pub fn stream(input: &[u8], out: &mut [u8]) {
    let done = raw::shake128(input, out);
    debug_assert!(done.is_ok(), "it is short");
}

pub fn sha3_256(_: u32, given: &[&Data], out: &mut [Data]) -> Result<Answer, Refused> {
    let done = raw::sha3_256(given[0].bytes(), out[0].bytes_mut());
    ended(done.map(|n| Answer::written(&[n])))
}

pub fn bench(scheme: u32, given: &[&Data], _: &mut [Data]) -> Result<Answer, Refused> {
    let done = raw::bench(
        scheme,
        given[0].numbers(),
        given[1].values(),
        given[2].values(),
        given[3].bytes(),
        given[4].values(),
        given[5].values(),
        given[6].values(),
        given[7].bytes(),
    );
    ended(done.map(|(keys, slack)| Answer {
        written: vec![],
        keys: Some(keys),
        slack: Some(slack),
    }))
}

/// The settings of a box, and the format that they were read in.
pub struct Settings {
    pub format: u64,
    pub scheme: u32,
    pub rule: u32,
    pub label: String,
}

/// Why a text gives none.
pub enum Unread {
    /// A newer format, and which.
    Newer(u64),
    Refused(Refused),
}

/// The newest format that is read.
pub const NEWEST: u32 = Format::NEWEST.number();

pub fn settings_read(text: &[u8]) -> Result<Settings, Unread> {
    let mut label = [0; LABEL];
    let done = raw::settings_read(NEWEST, text, &mut label);
    let read = done.map_err(|refusal| match refusal {
        Refusal::NewerFormat(format) => Unread::Newer(format),
        refusal => Unread::Refused(refused(refusal)),
    })?;
    Ok(Settings {
        format: read.format,
        scheme: read.scheme,
        rule: read.rule,
        label: String::from_utf8_lossy(&label[..read.label]).into_owned(),
    })
}

pub fn settings_write(scheme: u32, rule: u32, label: &[u8]) -> Result<Vec<u8>, Refused> {
    let mut text = [0; SETTINGS_TEXT];
    let n = raw::settings_write(scheme, rule, label, &mut text).map_err(refused)?;
    Ok(text[..n].to_vec())
}
