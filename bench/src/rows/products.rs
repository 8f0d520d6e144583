//! The product by halves at every length; and beside BCNS's own product, whose
//! secrets are small, and one Offer.

use super::Rows;
use crate::draw::Draw;
use crate::kernels;
use crate::lent::Lent;
use crate::ours::Ours;
use crate::plain::{products, Calls};
use second::schemes::BCNS;
use std::hint::black_box;

type Product = fn(&[u32], &[u32], &mut [u32]);

const PEERS: [(&str, Product); 2] = [("plain rule, a remainder at each term", products::by_terms), ("sums of 128 bits", products::by_sums)];

pub fn factors(draw: &mut Draw, length: usize) -> (Vec<u32>, Vec<u32>) {
    (draw.numbers(length, u32::MAX), draw.numbers(length, u32::MAX))
}

pub fn halves(a: &[u32], b: &[u32], out: &mut [u32], scratch: &mut [u32]) {
    assert!(wimmostry::product(a, b, out, scratch).is_ok());
}

fn lengths(rows: &mut dyn Rows, peer: &str, theirs: Product) {
    for length in second::products::LENGTHS {
        let (a, b) = factors(&mut Draw::new(11), length);
        let (mut x, mut y, mut scratch) = (vec![0; length], vec![0; length], vec![0; 6 * length]);
        halves(&a, &b, &mut x, &mut scratch);
        theirs(&a, &b, &mut y);
        assert!(x == y, "the two give one product");
        let mut ours = || halves(black_box(&a), black_box(&b), &mut x, &mut scratch);
        rows.row(&format!("Product, L = {length}"), peer, &mut ours, &mut || theirs(black_box(&a), black_box(&b), &mut y));
    }
}

/// What Offer, Reply and Finish would gain: nothing.
fn in_the_exchange(rows: &mut dyn Rows) {
    let mut draw = Draw::new(11);
    let (a, b) = factors(&mut draw, 1024);
    let s = draw.secrets(1024, 51);
    let (mut x, mut y, mut scratch) = ([0; 1024], [0; 1024], [0; 6144]);
    let (lent, mut message) = (Lent::drawn(&BCNS, 11), vec![0; BCNS.opening_bytes()]);
    let mut ours = || halves(black_box(&a), black_box(&b), &mut x, &mut scratch);
    let mut window = || kernels::polynomial_multiply(black_box(&a), black_box(&s), &mut y);
    rows.row("Product, L = 1024", "our kernel for small secrets", &mut ours, &mut window);
    rows.row("Product, L = 1024", "our Offer in BCNS, whole", &mut ours, &mut || Ours(&lent).offer(&mut message));
}

pub fn rows(rows: &mut dyn Rows) {
    PEERS.iter().for_each(|&(peer, theirs)| lengths(rows, peer, theirs));
    in_the_exchange(rows);
}
