//! What an exchange needs of randomness: secrets and noise through Noise,
//! public numbers below q, seed and coins.

use crate::bcns;
use crate::calls::{self, Refused, Sizes, SCHEMES};
use crate::data::{Data, Kind, Wiped};
use crate::escape::shown;
use crate::explain;
use crate::files::{self, Named};
use crate::fresh::Mode;
use crate::near;
use crate::outputs;
use crate::public;
use crate::random;
use crate::run::{cleared, voice};
use crate::table::SEED;
use crate::tell::{self, Done, Fault};
use crate::words::{self, Asked, Place};
use std::ffi::{OsStr, OsString};
use std::os::unix::ffi::OsStrExt;

pub const WORDS: &str = "\
\x20 WHAT     s or e     the initiator's secret and noise: values
           s1, e1, e2 the replier's secret and noise: values
           a          public numbers below q, for both ends
           seed       bytes that travel in the opening (none in BCNS: an empty file)
           coins      the replier's random bytes (none in Frodo: an empty file)
  FILE     in: the seed of which a is made in Frodo; in BCNS none
  OUT      out: what was drawn; mode 600 but for a and seed
";

pub const MORE: &str = "\
Values come from /dev/urandom through noise; in BCNS by the table of its paper, which the program
has with it. Draw all anew for each exchange. With seed=FILE nothing is drawn: a is made as link
makes it, in Frodo of the seed that the opening carries, row i being SHAKE-128 of i, as two bytes,
the lower first, and the seed, in words of 16 bits modulo q; in BCNS of the text 'wimmostry BCNS a',
the same for all, in words of 32 bits, those of q or more passed over (seed=none).";

pub const BCNS: u32 = 0;
pub const NEWHOPE: u32 = 1;

#[derive(Clone, Copy, PartialEq)]
enum What {
    /// s, e, s' or e'.
    Secret,
    /// e''.
    Last,
    Public,
    Seed,
    Coins,
}

fn what(word: &OsStr) -> Result<What, Fault> {
    match word.to_str() {
        Some("s" | "e" | "s1" | "e1") => Ok(What::Secret),
        Some("e2") => Ok(What::Last),
        Some("a") => Ok(What::Public),
        Some("seed") => Ok(What::Seed),
        Some("coins") => Ok(What::Coins),
        _ => Err(tell::words(format!(
            "WHAT is a, s, e, seed, s1, e1, e2 or coins, not '{}'{}",
            shown(word),
            near::hint(word, ["seed", "coins"])
        ))),
    }
}

pub fn run(given: &[OsString]) -> Done {
    let asked = words::scheme(&given[0])?;
    let what = what(&given[1])?;
    let (seed, out) = match &given[2..] {
        [seed, out] => (Some(seed_word(seed, what)?), out),
        _ => (None, &given[2]),
    };
    let place = [words::output("OUT", out)?];
    let secret = !matches!(what, What::Public | What::Seed);
    let named = |word, place, secret| Named {
        word,
        place,
        secret,
    };
    let seed_named = seed.as_ref().map(|place| named("seed=", place, false));
    let inputs: Vec<Named> = asked.named().into_iter().chain(seed_named).collect();
    files::no_clash(&inputs, &[named("OUT", &place[0], secret)])?;
    files::new(&place[0])?;
    let drawn = drawn(&asked, what, seed.as_ref()).map_err(|fault| cleared(fault, &place))?;
    let answer = outputs::Answer {
        place: &place[0],
        bytes: drawn.to_file(),
        mode: if secret { Mode::Closed } else { Mode::Open },
        kept: false,
    };
    outputs::put(&[answer])?;
    tell::say(voice(&place), &format!("written={}\n", drawn.len()))?;
    Ok(tell::DONE)
}

/// `seed=FILE`, for public numbers.
fn seed_word(word: &OsStr, what: What) -> Result<Place, Fault> {
    match word.as_bytes().strip_prefix(b"seed=") {
        Some(file) if what == What::Public => words::place("seed=", OsStr::from_bytes(file)),
        Some(_) => Err(tell::words("only a is made of a seed".to_string())),
        None => Err(tell::words(format!(
            "draw takes SCHEME WHAT [seed=FILE] OUT, and '{}' is no seed=FILE",
            shown(word)
        ))),
    }
}

fn drawn(asked: &Asked, what: What, seed: Option<&Place>) -> Result<Data, Fault> {
    let scheme = asked.scheme()?;
    let Some(sizes) = calls::sizes(scheme) else {
        let detail = explain::no_scheme(scheme, 0, SCHEMES - 1);
        return Err(tell::refused(1, 0, Some(detail)));
    };
    match seed {
        Some(place) => from_seed(scheme, &sizes, place),
        None => draw(scheme, &sizes, what),
    }
}

/// The public numbers that a seed makes: Frodo's A, and BCNS's a of no seed.
fn from_seed(scheme: u32, sizes: &Sizes, place: &Place) -> Result<Data, Fault> {
    if scheme == NEWHOPE {
        let line = "NewHope's numbers are made of a seed by grow, with a rule";
        return Err(tell::words(line.to_string()));
    }
    let seed = files::read(&SEED, place)?;
    if seed.data.len() != sizes.seed {
        let there = seed.there();
        let detail = format!("input=seed length={there} expected={}", sizes.seed);
        return Err(tell::refused(2, 0, Some(detail)));
    }
    Ok(Data::Numbers(public::numbers(
        scheme,
        sizes,
        seed.data.bytes(),
    )))
}

fn draw(scheme: u32, sizes: &Sizes, what: What) -> Result<Data, Fault> {
    match what {
        What::Secret => secret(scheme, sizes),
        What::Last => last(scheme, sizes),
        What::Public => public(sizes),
        What::Seed => Ok(Data::Bytes(random::bytes(sizes.seed)?)),
        What::Coins => Ok(Data::Bytes(random::bytes(sizes.coins)?)),
    }
}

/// One of s, e, s' and e'.
pub fn secret(scheme: u32, sizes: &Sizes) -> Result<Data, Fault> {
    noise(scheme, sizes, sizes.s_bytes, sizes.s)
}

/// e''.
pub fn last(scheme: u32, sizes: &Sizes) -> Result<Data, Fault> {
    noise(scheme, sizes, sizes.e2_bytes, sizes.e2)
}

fn noise(scheme: u32, sizes: &Sizes, bytes: usize, values: usize) -> Result<Data, Fault> {
    let random = Data::Bytes(random::bytes(bytes)?);
    let table = bcns::table(sizes.table);
    let mut out = [Data::zeros(Kind::Values, values)];
    match calls::noise(scheme, &[&random, &table], &mut out) {
        Ok(answer) if answer.written == [values] => {
            let [out] = out;
            Ok(out)
        }
        Ok(_) => unreachable!("noise gives as many values as the bytes make"),
        Err(Refused { number, .. }) => unreachable!("noise of a fixed length refused by {number}"),
    }
}

/// Public numbers, each as likely as any other below q: a random word of as
/// many bits as q - 1 has is passed over where it is q or more.
pub fn public(sizes: &Sizes) -> Result<Data, Fault> {
    let mask = u32::MAX >> (sizes.q - 1).leading_zeros();
    let mut numbers: Wiped<u32> = Wiped::zeros(sizes.a);
    let mut random = Wiped::zeros(1 << 16);
    let mut n = 0;
    while n < numbers.len() {
        random::fill(&mut random)?;
        for four in random.chunks_exact(4) {
            let number = u32::from_le_bytes([four[0], four[1], four[2], four[3]]) & mask;
            if number < sizes.q && n < numbers.len() {
                numbers[n] = number;
                n += 1;
            }
        }
    }
    Ok(Data::Numbers(numbers))
}

#[cfg(test)]
mod tests {
    use super::*;

    #[test]
    fn what_is_drawn_is_taken() {
        for scheme in 0..calls::SCHEMES {
            let sizes = calls::sizes(scheme).unwrap();
            let Ok(secret) = secret(scheme, &sizes) else {
                panic!("no randomness")
            };
            let largest = sizes.noise;
            assert_eq!(secret.len(), sizes.s);
            assert!(secret.values().iter().all(|v| v.abs() <= largest));
            assert!(secret.values().iter().any(|&v| v != 0));
            // of 1,024 draws from a Gaussian of width 3.2 some are over 5 and none over 30
            if scheme == BCNS {
                assert!(secret.values().iter().any(|v| v.abs() > 5));
                assert!(secret.values().iter().all(|v| v.abs() < 30));
            }
        }
    }

    #[test]
    fn public_numbers_lie_below_q_and_reach_up_to_it() {
        for scheme in [0, 1, 2] {
            let sizes = calls::sizes(scheme).unwrap();
            let Ok(public) = public(&sizes) else {
                panic!("no randomness")
            };
            let largest = *public.numbers().iter().max().unwrap();
            assert!(largest < sizes.q && largest > sizes.q / 10 * 9);
            assert_eq!(public.len(), sizes.a);
        }
    }
}
