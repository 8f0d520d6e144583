use super::{enough, write};
use crate::expand::COUNT;
use crate::grow::grown;
use crate::refusal::{self, Refusal};
use crate::schemes::NEWHOPE;

/// Grow: rule, seed. Gives 1024 numbers.
pub fn grow(rule: u32, seed: &[u8], numbers: &mut [u32]) -> Result<usize, Refusal> {
    numbers.fill(0);

    let rule = refusal::no_rule(rule)?;
    refusal::wrong_length(seed.len(), NEWHOPE.seed_bytes())?;
    refusal::short_output(numbers.len(), COUNT)?;
    let answer = enough(grown(rule, seed))?;
    Ok(write(&answer, numbers))
}
