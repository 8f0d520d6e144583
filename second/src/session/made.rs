//! A call of a session with all that it is lent, and all that its caller sees.

use super::lent::{close, lent_step};
use super::Name;
use crate::calls;
use crate::reconcile::Slack;
use crate::refusal::Refusal;
use std::sync::{Arc, OnceLock};

/// The inputs of a call behind its scheme, in 01's order. A is large, and lent to
/// many.
#[derive(Clone, Debug)]
pub enum Inputs {
    Offer {
        a: Arc<Vec<u32>>,
        s: Vec<i32>,
        e: Vec<i32>,
        seed: Vec<u8>,
    },
    Reply {
        opening: Vec<u8>,
        a: Arc<Vec<u32>>,
        s1: Vec<i32>,
        e1: Vec<i32>,
        e2: Vec<i32>,
        coins: Vec<u8>,
    },
    Finish {
        reply: Vec<u8>,
        s: Vec<i32>,
    },
    Close,
}

/// All that a caller sees beside the session. The outputs of Offer are the
/// message; of Reply message, key, digest; of Finish key, digest.
#[derive(Clone, Debug, PartialEq, Eq)]
pub struct Seen {
    pub refusal: Option<Refusal>,
    pub written: Vec<usize>,
    pub outputs: Vec<Vec<u8>>,
    pub slack: Slack,
}

/// A call: what it is there for, its scheme and inputs, the room of each output.
#[derive(Clone, Debug)]
pub struct Call {
    pub what: String,
    pub scheme: u64,
    pub inputs: Inputs,
    pub rooms: Vec<usize>,
    /// What the plain call gives, which is the same each time.
    beneath: OnceLock<Seen>,
}

impl Call {
    pub fn new(what: &str, scheme: u64, inputs: Inputs, rooms: &[usize]) -> Call {
        Call {
            what: what.to_string(),
            scheme,
            inputs,
            rooms: rooms.to_vec(),
            beneath: OnceLock::new(),
        }
    }

    pub fn name(&self) -> Name {
        match self.inputs {
            Inputs::Offer { .. } => Name::Offer,
            Inputs::Reply { .. } => Name::Reply,
            Inputs::Finish { .. } => Name::Finish,
            Inputs::Close => Name::Close,
        }
    }

    /// What the call gives without a session.
    pub fn beneath(&self) -> &Seen {
        self.beneath.get_or_init(|| self.plain())
    }

    /// The call on a session of lent bytes.
    pub fn run(&self, session: &mut [u8]) -> Seen {
        if self.name() == Name::Close {
            close(session);
            return self.beneath().clone();
        }
        let told = lent_step(session, self.name(), self.scheme, || {
            let seen = self.beneath();
            match seen.refusal {
                Some(refusal) => Err(refusal),
                None => Ok((seen.clone(), seen.key(self.name()))),
            }
        });
        told.unwrap_or_else(|refusal| self.refused(refusal))
    }

    /// Zeros all over.
    pub fn refused(&self, refusal: Refusal) -> Seen {
        Seen {
            refusal: Some(refusal),
            written: vec![0; self.rooms.len()],
            outputs: self.rooms.iter().map(|&room| vec![0; room]).collect(),
            slack: Slack::default(),
        }
    }

    fn plain(&self) -> Seen {
        let mut outputs: Vec<Vec<u8>> = self.rooms.iter().map(|&room| vec![1; room]).collect();
        let told = self.into(&mut outputs);
        match told {
            Ok((written, slack)) => Seen {
                refusal: None,
                written,
                outputs,
                slack,
            },
            Err(refusal) => self.refused(refusal),
        }
    }

    /// The plain call into these outputs.
    fn into(&self, outputs: &mut [Vec<u8>]) -> Result<(Vec<usize>, Slack), Refusal> {
        let none = Slack::default();
        match (&self.inputs, outputs) {
            (Inputs::Offer { a, s, e, seed }, [message]) => {
                let m = calls::offer(self.scheme, a, s, e, seed, message)?;
                Ok((vec![m], none))
            }
            (
                Inputs::Reply {
                    opening,
                    a,
                    s1,
                    e1,
                    e2,
                    coins,
                },
                [message, key, digest],
            ) => {
                let (m, k, d) = calls::reply(
                    self.scheme,
                    opening,
                    a,
                    s1,
                    e1,
                    e2,
                    coins,
                    message,
                    key,
                    digest,
                )?;
                Ok((vec![m, k, d], none))
            }
            (Inputs::Finish { reply, s }, [key, digest]) => {
                let (k, d, slack) = calls::finish(self.scheme, reply, s, key, digest)?;
                Ok((vec![k, d], slack))
            }
            (Inputs::Close, []) => Ok((vec![], none)),
            _ => panic!("each output has a room"),
        }
    }
}

impl Seen {
    /// The key that the call gave, if it gives one.
    pub fn key(&self, name: Name) -> Vec<u8> {
        let at = match name {
            Name::Reply => 1,
            Name::Finish => 0,
            Name::Offer | Name::Close => return vec![],
        };
        self.outputs[at][..self.written[at]].to_vec()
    }
}
