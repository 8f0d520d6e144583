//! 01, "The calls": b = as + e; u = as' + e'; v = bs' + e''; w = us.
//! All reduced to 0..q-1.

use crate::matrix;
use crate::polynomial::{product, sum};
use crate::schemes::{Family, Scheme};

/// as + e, or AS + E.
pub fn b(scheme: &Scheme, a: &[i128], s: &[i128], e: &[i128]) -> Vec<i128> {
    let a_s = match scheme.family {
        Family::Bcns | Family::NewHope => product(a, s, scheme.q),
        Family::Frodo => matrix::a_s(a, s, scheme.n, scheme.q),
    };
    sum(&a_s, e, scheme.q)
}

/// as' + e', or S'A + E'.
pub fn u(scheme: &Scheme, a: &[i128], s1: &[i128], e1: &[i128]) -> Vec<i128> {
    let a_s1 = match scheme.family {
        Family::Bcns | Family::NewHope => product(a, s1, scheme.q),
        Family::Frodo => matrix::s1_a(s1, a, scheme.n, scheme.q),
    };
    sum(&a_s1, e1, scheme.q)
}

/// bs' + e'', or S'B + E''.
pub fn v(scheme: &Scheme, b: &[i128], s1: &[i128], e2: &[i128]) -> Vec<i128> {
    let b_s1 = match scheme.family {
        Family::Bcns | Family::NewHope => product(b, s1, scheme.q),
        Family::Frodo => matrix::s1_b(s1, b, scheme.n, scheme.q),
    };
    sum(&b_s1, e2, scheme.q)
}

/// us, or B'S.
pub fn w(scheme: &Scheme, u: &[i128], s: &[i128]) -> Vec<i128> {
    match scheme.family {
        Family::Bcns | Family::NewHope => product(u, s, scheme.q),
        Family::Frodo => matrix::b1_s(u, s, scheme.n, scheme.q),
    }
}
