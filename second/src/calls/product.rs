use super::write;
use crate::polynomial;
use crate::products::{scratch_count, LENGTHS};
use crate::refusal::{self, Refusal};
use crate::schemes::BCNS;

/// Product (02, request j): a, b, both of a length L. Gives their product modulo
/// X^L + 1 and BCNS's q, by the plain rule, which needs no scratch: it is zeroed,
/// refused or not.
pub fn product(
    a: &[u32],
    b: &[u32],
    out: &mut [u32],
    scratch: &mut [u32],
) -> Result<usize, Refusal> {
    out.fill(0);
    scratch.fill(0);

    if !LENGTHS.contains(&a.len()) {
        return Err(refusal::refusal(2, 0));
    }
    refusal::wrong_length(b.len(), a.len())?;
    refusal::short_output(out.len(), a.len())?;
    refusal::short_output(scratch.len(), scratch_count(a.len()))?;
    refusal::large_public(&BCNS, a)?;
    refusal::large_public(&BCNS, b)?;

    let plain = |factor: &[u32]| -> Vec<i128> { factor.iter().map(|&x| x.into()).collect() };
    let answer = polynomial::product(&plain(a), &plain(b), BCNS.q);
    // Below q, so below 2^32.
    let answer: Vec<u32> = answer.iter().map(|&x| u32::try_from(x).unwrap()).collect();
    Ok(write(&answer, out))
}
