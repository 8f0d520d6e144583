//! The public numbers that are made of a seed, or of nothing. Both rules are the
//! command line's own choice: the library takes the numbers as they are lent.

use crate::calls::{self, Sizes};
use crate::data::Wiped;
use crate::draw::BCNS;

/// Of what BCNS's a is made, which has no seed: its paper has one a for all, and
/// prints none.
const BCNS_TEXT: &[u8] = b"wimmostry BCNS a";

/// All public numbers of BCNS, or of Frodo by its seed.
pub fn numbers(scheme: u32, sizes: &Sizes, seed: &[u8]) -> Wiped<u32> {
    match scheme {
        BCNS => bcns(sizes),
        _ => frodo(sizes, seed),
    }
}

/// Row i is the first 2n bytes of SHAKE-128 of i, the lower of its two bytes first,
/// and the seed, as words of 16 bits, the lower byte first, modulo q: the rule of the
/// later FrodoKEM submission.
fn frodo(sizes: &Sizes, seed: &[u8]) -> Wiped<u32> {
    let mut numbers = Wiped::zeros(sizes.a);
    let mut bytes = vec![0; 2 * sizes.row];
    for (i, row) in numbers.chunks_exact_mut(sizes.row).enumerate() {
        let input = [&(i as u16).to_le_bytes()[..], seed].concat();
        calls::stream(&input, &mut bytes);
        for (number, two) in row.iter_mut().zip(bytes.chunks_exact(2)) {
            *number = u32::from(u16::from_le_bytes([two[0], two[1]])) % sizes.q;
        }
    }
    numbers
}

/// Words of 32 bits, the lower byte first, those of q or more passed over.
fn bcns(sizes: &Sizes) -> Wiped<u32> {
    let mut spare = 0;
    loop {
        let mut bytes = vec![0; 4 * (sizes.a + spare)];
        calls::stream(BCNS_TEXT, &mut bytes);
        let word = |four: &[u8]| u32::from_le_bytes([four[0], four[1], four[2], four[3]]);
        let below = bytes.chunks_exact(4).map(word).filter(|&n| n < sizes.q);
        let taken: Vec<u32> = below.take(sizes.a).collect();
        if taken.len() == sizes.a {
            return Wiped::collect(taken.into_iter());
        }
        spare += 1;
    }
}
