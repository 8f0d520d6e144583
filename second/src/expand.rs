//! 01, "The NewHope transform", under "Expand", as amended by request g of 02
//! (docs/RULES.md).

use crate::schemes::NEWHOPE;

/// Numbers of the answer.
pub const COUNT: usize = NEWHOPE.n;

/// The longest stream that is read at all.
pub const LONGEST: usize = 65536;

/// How a word of the stream is taken or passed over.
#[derive(Clone, Copy, Debug, PartialEq, Eq)]
pub enum Rule {
    LowBits,
    WholeWord,
}

impl Rule {
    /// The rule with this number, if there is one.
    pub fn of(number: u32) -> Option<Rule> {
        match number {
            14 => Some(Rule::LowBits),
            16 => Some(Rule::WholeWord),
            _ => None,
        }
    }

    /// The number that a 16-bit word gives; none where it is passed over.
    pub fn number(self, word: u32) -> Option<u32> {
        let q = NEWHOPE.q as u32;
        match self {
            Rule::LowBits => Some(word % (1 << 14)).filter(|&low| low < q),
            Rule::WholeWord if word < 61445 => Some(word % q),
            Rule::WholeWord => None,
        }
    }
}

/// The first 1024 numbers taken; fewer if the stream ran out.
pub fn taken(rule: Rule, stream: &[u8]) -> Vec<u32> {
    let word = |pair: &[u8]| u32::from(pair[0]) + 256 * u32::from(pair[1]);
    let words = stream.chunks_exact(2).map(word);
    words.filter_map(|w| rule.number(w)).take(COUNT).collect()
}
