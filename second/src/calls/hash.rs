use super::write;
use crate::hash::{self, DIGEST, LONGEST};
use crate::refusal::{self, Refusal};

/// SHAKE-128: the input. Fills its output.
pub fn shake128(input: &[u8], output: &mut [u8]) -> Result<usize, Refusal> {
    output.fill(0);

    refusal::too_long(input.len(), LONGEST)?;
    let answer = hash::shake128(input, output.len());
    Ok(write(&answer, output))
}

/// SHA3-256: the input. Gives 32 bytes.
pub fn sha3_256(input: &[u8], output: &mut [u8]) -> Result<usize, Refusal> {
    output.fill(0);

    refusal::too_long(input.len(), LONGEST)?;
    refusal::short_output(output.len(), DIGEST)?;
    let answer = hash::sha3_256(input);
    Ok(write(&answer, output))
}
