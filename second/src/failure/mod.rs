//! 02, request n, and beyond it: how likely an exchange fails, from how often
//! each noise value comes out. Of Frodo the exact probability for one entry, of
//! NewHope an upper bound. docs/AGREEMENT.md says what each figure is.

pub mod exact;
pub mod frodo;
pub mod newhope;

use crate::schemes::{Family, Scheme, SIX};

/// A line for each scheme in which an exchange can fail.
pub fn failure() -> Vec<String> {
    let failing = SIX.iter().filter(|scheme| scheme.family != Family::Bcns);
    failing.map(line).collect()
}

fn line(scheme: &Scheme) -> String {
    let number = scheme.number;
    match printed(scheme) {
        None => format!(
            "failure scheme={number} exchange_beyond=2^-{}",
            newhope::bound()
        ),
        Some(printed) => {
            let chance = frodo::Set::of(scheme).chance();
            // of 64 entries: at most the sum
            let both = [&chance.beyond, &chance.differ];
            let [beyond, differ] = both.map(|chance| chance.minus_log(0));
            let [all_beyond, all_differ] = both.map(|chance| chance.minus_log(6));
            format!(
                "failure scheme={number} entry_beyond=2^-{beyond} entry_differ=2^-{differ} \
                 exchange_beyond=2^-{all_beyond} exchange_differ=2^-{all_differ} \
                 printed=2^-{printed}"
            )
        }
    }
}

/// Document 001, table 2, the column "failure".
fn printed(scheme: &Scheme) -> Option<&'static str> {
    match scheme.number {
        2 => Some("41.8"),
        3 => Some("37.2"),
        4 => Some("36.5"),
        5 => Some("35.8"),
        _ => None,
    }
}
