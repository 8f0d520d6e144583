//! What a caller lends to the calls of one scheme.

use crate::draw::Draw;
use crate::plain::sampling;
use second::noise::bytes_a_value;
use second::schemes::{Family, Scheme};

pub struct Lent {
    pub scheme: &'static Scheme,
    pub a: Vec<u32>,
    pub s: Vec<i32>,
    pub e: Vec<i32>,
    pub seed: Vec<u8>,
    pub s1: Vec<i32>,
    pub e1: Vec<i32>,
    pub e2: Vec<i32>,
    pub coins: Vec<u8>,
}

/// The table of the scheme's noise: empty but in BCNS.
pub fn table(scheme: &Scheme) -> Vec<u64> {
    match scheme.family {
        Family::Bcns => second::table::table(),
        Family::NewHope | Family::Frodo => vec![],
    }
}

/// Noise of the scheme's own distribution.
fn noise(scheme: &Scheme, count: usize, draw: &mut Draw) -> Vec<i32> {
    let mut values = vec![0; count];
    sampling::noise(scheme, &draw.bytes(count * bytes_a_value(scheme)), &table(scheme), &mut values);
    values
}

impl Lent {
    pub fn drawn(scheme: &'static Scheme, seed: u32) -> Lent {
        let mut draw = Draw::new(seed);
        let many = scheme.secret_count();
        Lent {
            scheme,
            a: draw.numbers(scheme.public_count(), scheme.q as u32),
            s: noise(scheme, many, &mut draw),
            e: noise(scheme, many, &mut draw),
            seed: draw.bytes(scheme.seed_bytes()),
            s1: noise(scheme, many, &mut draw),
            e1: noise(scheme, many, &mut draw),
            e2: noise(scheme, scheme.last_noise_count(), &mut draw),
            coins: draw.bytes(scheme.coin_bytes()),
        }
    }

    pub fn number(&self) -> u32 {
        self.scheme.number as u32
    }
}
