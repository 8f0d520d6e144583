//! 01, "The calls", with those of 02. A call answers with its written counts or refuses with a
//! number and a place. Each output is zeroed first, so that after a refusal it
//! is zero over its whole length, and after a success behind the answer.

mod bench;
mod expand;
mod finish;
mod from_random;
mod grow;
mod hash;
mod noise;
mod offer;
mod product;
mod reply;
mod settings;

pub use bench::{bench, Bench};
pub use expand::expand;
pub use finish::finish;
pub use from_random::{answer, answer_bytes, lent_public, open, open_bytes};
pub use grow::grow;
pub use hash::{sha3_256, shake128};
pub use noise::noise;
pub use offer::offer;
pub use product::product;
pub use reply::reply;
pub use settings::{settings_read, settings_write, Read};

use crate::expand::COUNT;
use crate::refusal::{refusal, Refusal};

/// 7: fewer than 1024 numbers were taken.
fn enough(answer: Vec<u32>) -> Result<Vec<u32>, Refusal> {
    match answer.len() {
        COUNT => Ok(answer),
        fewer => Err(refusal(7, fewer)),
    }
}

/// Writes the answer at the start of the output; the written count.
pub(crate) fn write<T: Copy>(answer: &[T], output: &mut [T]) -> usize {
    output[..answer.len()].copy_from_slice(answer);
    answer.len()
}

/// Secrets and noise as signed numbers to reckon with.
pub(crate) fn signed(values: &[i32]) -> Vec<i128> {
    values.iter().map(|&value| i128::from(value)).collect()
}
