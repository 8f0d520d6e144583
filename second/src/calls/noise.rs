use super::write;
use crate::noise;
use crate::refusal::{self, refusal, Refusal};

/// Noise: scheme, random bytes, in BCNS a table. Gives the values. Each fixed
/// length of the bytes has its own answer's length.
pub fn noise(
    scheme: u64,
    bytes: &[u8],
    table: &[u64],
    values: &mut [i32],
) -> Result<usize, Refusal> {
    values.fill(0);

    let scheme = refusal::no_scheme(scheme)?;
    if !noise::lengths(scheme).contains(&bytes.len()) {
        return Err(refusal(2, 0));
    }
    refusal::wrong_length(table.len(), noise::table_words(scheme))?;
    let count = bytes.len() / noise::bytes_a_value(scheme);
    refusal::short_output(values.len(), count)?;
    refusal::not_ascending(&noise::entries(table))?;

    let answer = noise::values(scheme, bytes, table);
    Ok(write(&answer, values))
}
