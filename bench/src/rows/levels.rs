//! The calls of the library for x86-64-v3 beside those of the library for plain
//! x86-64, both of one proved bitcode. Both are lent the same and give the same.

use super::calls::Exchange;
use super::products::factors;
use super::Rows;
use crate::draw::Draw;
use crate::grown::seeds;
use crate::lent::{table, Lent};
use crate::levels::{Level, Of, LEVELS};
use crate::plain::Calls;
use second::schemes::{Scheme, SIX};

const PEER: &str = LEVELS[0].0;

fn noise(rows: &mut dyn Rows, scheme: &Scheme, plain: &Level, wide: &Level) {
    let (bytes, table) = (Draw::new(6).bytes(second::noise::lengths(scheme)[0]), table(scheme));
    let [mut x, mut y] = [(); 2].map(|_| vec![0; scheme.secret_count()]);
    let number = scheme.number as u32;
    rows.row(&format!("{}, Noise", scheme.name), PEER, &mut || wide.noise(number, &bytes, &table, &mut x), &mut || {
        plain.noise(number, &bytes, &table, &mut y);
    });
    assert!(x == y, "the two give one noise");
}

fn exchange(rows: &mut dyn Rows, scheme: &'static Scheme, plain: &Level, wide: &Level) {
    let (lent, name) = (Lent::drawn(scheme, 5), scheme.name);
    let (ours, theirs) = (Of(wide, &lent), Of(plain, &lent));
    let [mut x, mut y] = [&ours, &theirs].map(|it| Exchange::of(scheme, it));
    assert!(x == y, "the two give one exchange");
    rows.row(&format!("{name}, Offer"), PEER, &mut || ours.offer(&mut x.opening), &mut || theirs.offer(&mut y.opening));
    rows.row(&format!("{name}, Reply"), PEER, &mut || ours.reply(&x.opening, &mut x.reply, &mut x.key), &mut || {
        theirs.reply(&y.opening, &mut y.reply, &mut y.key);
    });
    rows.row(&format!("{name}, Finish"), PEER, &mut || ours.finish(&x.reply, &mut x.peer), &mut || theirs.finish(&y.reply, &mut y.peer));
}

fn others(rows: &mut dyn Rows, plain: &Level, wide: &Level) {
    let (a, b) = factors(&mut Draw::new(11), 1024);
    let [mut x, mut y] = [(); 2].map(|_| (vec![0; 1024], vec![0; 6 * 1024]));
    rows.row("Product, L = 1024", PEER, &mut || wide.product(&a, &b, &mut x.0, &mut x.1), &mut || plain.product(&a, &b, &mut y.0, &mut y.1));
    assert!(x == y, "the two give one product");
    let (seed, [mut x, mut y]) = (seeds()[0], [[0; 1024]; 2]);
    rows.row("Grow by rule 14", PEER, &mut || wide.grow(14, &seed, &mut x), &mut || plain.grow(14, &seed, &mut y));
    assert!(x == y, "the two give the same numbers");
}

/// Where the processor has the second level, and its library was written.
#[cfg(target_arch = "x86_64")]
fn has_both() -> bool {
    is_x86_feature_detected!("avx2")
}

#[cfg(not(target_arch = "x86_64"))]
fn has_both() -> bool {
    false
}

pub fn rows(rows: &mut dyn Rows) {
    if !has_both() {
        return;
    }
    let [Some(plain), Some(wide)] = LEVELS.map(|(_, folder)| Level::open(folder)) else {
        return;
    };
    SIX.iter().for_each(|it| exchange(rows, it, &plain, &wide));
    SIX.iter().for_each(|it| noise(rows, it, &plain, &wide));
    others(rows, &plain, &wide);
}
