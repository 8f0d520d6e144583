//! 01, "Reconciliation": hints and keys of whole polynomials and matrices; with
//! request f of 02, how much slack the initiator used.

pub mod bcns;
pub mod frodo;
pub mod newhope;

use crate::coins;
use crate::schemes::{Family, Scheme};

/// The replier's hints and key entries, from v and the coins.
pub fn replier(scheme: &Scheme, v: &[i128], coin_bytes: &[u8]) -> (Vec<u32>, Vec<u32>) {
    let coins = coins::read(scheme, coin_bytes);
    match scheme.family {
        Family::Bcns => {
            let rule = bcns::Rule::of(scheme);
            let z: Vec<i128> = v.iter().zip(coins).map(|(&v, c)| rule.z(v, c)).collect();
            (
                z.iter().map(|&z| rule.hint(z)).collect(),
                z.iter().map(|&z| rule.key(z)).collect(),
            )
        }
        Family::Frodo => {
            let rule = frodo::Rule::of(scheme);
            (
                v.iter().map(|&v| rule.hint(v)).collect(),
                v.iter().map(|&v| rule.key(v)).collect(),
            )
        }
        Family::NewHope => {
            let hints = newhope::hints(v, &coins);
            let keys = newhope::keys(v, &hints);
            (hints, keys)
        }
    }
}

/// The initiator's key entries, from w and the hints.
pub fn initiator(scheme: &Scheme, w: &[i128], hints: &[u32]) -> Vec<u32> {
    match scheme.family {
        Family::Bcns => {
            let rule = bcns::Rule::of(scheme);
            let entries = w.iter().zip(hints);
            entries.map(|(&w, &hint)| rule.peer(w, hint)).collect()
        }
        Family::Frodo => {
            let rule = frodo::Rule::of(scheme);
            let entries = w.iter().zip(hints);
            entries.map(|(&w, &hint)| rule.peer(w, hint)).collect()
        }
        Family::NewHope => newhope::keys(w, hints),
    }
}

/// 02, request f: the largest slack over all entries, and its first index.
#[derive(Clone, Copy, Debug, Default, PartialEq, Eq)]
pub struct Slack {
    pub largest: u64,
    pub index: usize,
}

/// The slack that the initiator used; NewHope gives 0 and index 0.
pub fn slack(scheme: &Scheme, w: &[i128], hints: &[u32]) -> Slack {
    match scheme.family {
        Family::NewHope => Slack::default(),
        Family::Bcns | Family::Frodo => largest(&slacks(scheme, w, hints)),
    }
}

/// The slack of each entry.
fn slacks(scheme: &Scheme, w: &[i128], hints: &[u32]) -> Vec<i128> {
    let entries = w.iter().zip(hints);
    match scheme.family {
        Family::Bcns => {
            let rule = bcns::Rule::of(scheme);
            entries.map(|(&w, &hint)| rule.slack(w, hint)).collect()
        }
        Family::Frodo => {
            let rule = frodo::Rule::of(scheme);
            let having = [0, 1].map(|hint| rule.having(hint));
            let slack = |(&w, &hint): (&i128, &u32)| rule.slack(w, &having[hint as usize]);
            entries.map(slack).collect()
        }
        Family::NewHope => panic!("NewHope has no slack"),
    }
}

/// The largest of some slacks, and the first index that has it.
pub fn largest(slacks: &[i128]) -> Slack {
    let largest = *slacks.iter().max().expect("there are entries");
    let first = slacks.iter().position(|&slack| slack == largest);
    Slack {
        largest: largest as u64,
        index: first.expect("one of them is the largest"),
    }
}
