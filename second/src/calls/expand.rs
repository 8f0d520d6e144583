use super::{enough, write};
use crate::expand::{taken, COUNT, LONGEST};
use crate::refusal::{self, Refusal};

/// Expand: rule, the stream. Gives 1024 numbers.
pub fn expand(rule: u32, stream: &[u8], numbers: &mut [u32]) -> Result<usize, Refusal> {
    numbers.fill(0);

    let rule = refusal::no_rule(rule)?;
    refusal::too_long(stream.len(), LONGEST)?;
    refusal::short_output(numbers.len(), COUNT)?;
    let answer = enough(taken(rule, stream))?;
    Ok(write(&answer, numbers))
}
