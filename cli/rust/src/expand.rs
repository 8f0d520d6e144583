//! NewHope's public numbers from a stream or from their seed, by one of two rules.

use crate::{raw, Refusal};
use core::fmt;

/// How [`expand`] and [`grow`] take the 16-bit words of a stream.
#[derive(Clone, Copy, Debug, PartialEq, Eq, Hash)]
pub enum Rule {
    /// 14: the low 14 bits of a word if they are below 12289. Older boxes know
    /// this one alone.
    LowBits,
    /// 16: the whole word if it is below 61445, reduced modulo 12289.
    WholeWord,
}

impl Rule {
    /// Both of them, in the order of their numbers.
    pub const ALL: [Rule; 2] = [Rule::LowBits, Rule::WholeWord];

    /// The number by which a call knows the rule, 14 or 16.
    #[must_use]
    pub const fn number(self) -> u32 {
        match self {
            Rule::LowBits => 14,
            Rule::WholeWord => 16,
        }
    }

    /// The name as it is written.
    #[must_use]
    pub const fn name(self) -> &'static str {
        match self {
            Rule::LowBits => "low bits",
            Rule::WholeWord => "whole word",
        }
    }
}

impl TryFrom<u32> for Rule {
    type Error = Refusal;

    /// The rule of a number, or refusal 12.
    fn try_from(number: u32) -> Result<Rule, Refusal> {
        let mut rules = Rule::ALL.into_iter();
        let known = rules.find(|rule| rule.number() == number);
        known.ok_or(Refusal::NoRule)
    }
}

impl fmt::Display for Rule {
    fn fmt(&self, f: &mut fmt::Formatter) -> fmt::Result {
        f.pad(self.name())
    }
}

/// How many numbers [`expand`] and [`grow`] give.
pub const EXPAND_NUMBERS: usize = 1024;

/// The longest stream that [`expand`] takes, in bytes.
pub const EXPAND_STREAM: usize = 65536;

/// Expand: a rule and a stream of bytes, whose 16-bit words have the lower byte
/// first. Gives the first 1,024 numbers that the rule takes: NewHope's a. Both
/// ends must use the same rule, since two make different numbers of one stream.
///
/// # Errors
///
/// Refuses with 2, 3 and 7.
pub fn expand(rule: Rule, stream: &[u8], out: &mut [u32]) -> Result<usize, Refusal> {
    raw::expand(rule.number(), stream, out)
}

/// Grow: a rule and NewHope's seed. Gives NewHope's a: what [`expand`] gives of
/// the first 24 blocks of 168 bytes of SHAKE-128 of the seed. Both ends must use
/// the same rule.
///
/// # Errors
///
/// Refuses with 3; no seed is known for which it refuses with 7.
pub fn grow(rule: Rule, seed: &[u8; 32], out: &mut [u32]) -> Result<usize, Refusal> {
    raw::grow(rule.number(), seed, out)
}
