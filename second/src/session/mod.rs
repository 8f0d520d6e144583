//! 02, request a: a session above the key agreement, which is here the plain
//! calls and what they tell.

pub mod files;
mod lent;
mod made;
mod sequences;

pub use lent::{answer, close, finish, lay, offer, open, parse, reply, BYTES};
pub use made::{Call, Inputs, Seen};
pub use sequences::{all_sequences, alphabet, in_no_stage, Step};

use crate::refusal::{refusal, Refusal};
use crate::schemes::{scheme, Scheme};

/// Bytes of the longest key.
pub const KEY: usize = 128;

/// A stage carries the scheme it was opened with.
#[derive(Clone, Copy, Debug, PartialEq, Eq)]
pub enum Stage {
    Idle,
    Offered(&'static Scheme),
    Keyed(&'static Scheme),
}

/// The key is zero until keyed, then the one that Reply or Finish gave, with
/// zeros behind.
#[derive(Clone, Copy, Debug, PartialEq, Eq)]
pub struct Session {
    pub stage: Stage,
    pub key: [u8; KEY],
}

pub const IDLE: Session = Session {
    stage: Stage::Idle,
    key: [0; KEY],
};

#[derive(Clone, Copy, Debug, PartialEq, Eq, PartialOrd, Ord)]
pub enum Name {
    Offer,
    Reply,
    Finish,
    Close,
}

/// When a call is allowed.
#[derive(Clone, Copy)]
enum Allowed {
    WhenIdle,
    WhenOfferedWithThatScheme,
    Always,
}

/// The stage that a call leads to, with its scheme where the stage has one.
#[derive(Clone, Copy)]
enum LeadsTo {
    Offered,
    Keyed,
    Idle,
}

/// "That small table".
const TABLE: [(Name, Allowed, LeadsTo); 4] = [
    (Name::Offer, Allowed::WhenIdle, LeadsTo::Offered),
    (Name::Reply, Allowed::WhenIdle, LeadsTo::Keyed),
    (
        Name::Finish,
        Allowed::WhenOfferedWithThatScheme,
        LeadsTo::Keyed,
    ),
    (Name::Close, Allowed::Always, LeadsTo::Idle),
];

impl Allowed {
    fn at(self, stage: Stage, scheme: u64) -> bool {
        match self {
            Allowed::WhenIdle => stage == Stage::Idle,
            Allowed::WhenOfferedWithThatScheme => match stage {
                Stage::Offered(with) => with.number == scheme,
                Stage::Idle | Stage::Keyed(_) => false,
            },
            Allowed::Always => true,
        }
    }
}

impl LeadsTo {
    fn stage(self, number: u64) -> Stage {
        let scheme = || scheme(number).expect("an accepted call's scheme is known");
        match self {
            LeadsTo::Idle => Stage::Idle,
            LeadsTo::Offered => Stage::Offered(scheme()),
            LeadsTo::Keyed => Stage::Keyed(scheme()),
        }
    }
}

/// A call of a session: refusal 10 before all others, or what the call beneath
/// answers. An accepted one moves as the table says, with the key beneath, empty
/// where it gives none; a refused one changes nothing.
pub fn step<T>(
    session: &mut Session,
    name: Name,
    scheme: u64,
    beneath: impl FnOnce() -> Result<(T, Vec<u8>), Refusal>,
) -> Result<T, Refusal> {
    let row = TABLE.iter().find(|(call, _, _)| *call == name);
    let (_, allowed, leads_to) = row.expect("the table has every call");
    if !allowed.at(session.stage, scheme) {
        return Err(refusal(10, 0));
    }
    let (answer, key) = beneath()?;
    let mut whole = [0; KEY];
    whole[..key.len()].copy_from_slice(&key);
    *session = Session {
        stage: leads_to.stage(scheme),
        key: whole,
    };
    Ok(answer)
}
