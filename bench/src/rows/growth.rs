//! How the time grows with the size of the work, one piece of code alone: beside
//! each point the slope from the one before it, both scales logarithmic, and the
//! slope that theory gives.

use super::by_rows::ByRows;
use super::calls::Exchange;
use super::products::{factors, halves};
use super::seeds::{sha3_256, shake128, Hash};
use super::Rows;
use crate::draw::Draw;
use crate::lent::Lent;
use crate::ours::Ours;
use crate::plain::Calls;
use second::schemes::{Family, FRODO_RECOMMENDED, SIX};
use std::hint::black_box;

/// From one point to another, both scales logarithmic.
pub fn slope(from: (f64, f64), to: (f64, f64)) -> f64 {
    (to.1 / from.1).ln() / (to.0 / from.0).ln()
}

struct Series<'a> {
    rows: &'a mut dyn Rows,
    name: &'static str,
    theory: &'static str,
    last: Option<(f64, f64)>,
}

impl Series<'_> {
    fn of<'a>(rows: &'a mut dyn Rows, name: &'static str, theory: &'static str) -> Series<'a> {
        Series { rows, name, theory, last: None }
    }

    fn point(&mut self, x: usize, code: &mut dyn FnMut()) {
        let point = (x as f64, self.rows.alone(&format!("{}, {x}", self.name), code));
        let slope = self.last.map(|last| format!("{:.2}", slope(last, point))).unwrap_or_default();
        self.rows.line(&[self.name.into(), x.to_string(), format!("{:.0}", point.1), slope, self.theory.into()]);
        self.last = Some(point);
    }
}

/// Over n: A has n n numbers, and what Finish reads 8 n.
pub fn calls(rows: &mut dyn Rows) {
    let sets: Vec<Lent> = SIX.iter().filter(|it| it.family == Family::Frodo).map(|it| Lent::drawn(it, 5)).collect();
    let mut exchanges: Vec<Exchange> = sets.iter().map(|lent| Exchange::of(lent.scheme, &Ours(lent))).collect();
    let mut series = Series::of(rows, "Offer", "2");
    for (lent, x) in sets.iter().zip(&mut exchanges) {
        series.point(lent.scheme.n, &mut || Ours(lent).offer(&mut x.opening));
    }
    let mut series = Series::of(rows, "Reply", "2");
    for (lent, x) in sets.iter().zip(&mut exchanges) {
        series.point(lent.scheme.n, &mut || Ours(lent).reply(&x.opening, &mut x.reply, &mut x.key));
    }
    let mut series = Series::of(rows, "Finish", "1");
    for (lent, x) in sets.iter().zip(&mut exchanges) {
        series.point(lent.scheme.n, &mut || Ours(lent).finish(&x.reply, &mut x.peer));
    }
}

/// Three products of half the length: log 3 by log 2.
pub fn products(rows: &mut dyn Rows) {
    let mut series = Series::of(rows, "Product", "1.58");
    for length in second::products::LENGTHS {
        let (a, b) = factors(&mut Draw::new(11), length);
        let (mut x, mut scratch) = (vec![0; length], vec![0; 6 * length]);
        series.point(length, &mut || halves(black_box(&a), black_box(&b), &mut x, &mut scratch));
    }
}

/// In whole blocks, which shows where there are few.
pub fn hashes(rows: &mut dyn Rows) {
    for (name, hash) in [("SHAKE-128", shake128 as Hash), ("SHA3-256", sha3_256)] {
        let mut series = Series::of(rows, name, "1");
        for length in [168, 1024, 4096, 16384, 65536] {
            let (input, mut out) = (Draw::new(8).bytes(length), [0; 32]);
            series.point(length, &mut || hash(black_box(&input), &mut out));
        }
    }
}

/// What is done once a part is divided by the parts' length, the rest is not.
pub fn parts(rows: &mut dyn Rows) {
    const LENGTHS: [usize; 4] = [1, 8, 64, FRODO_RECOMMENDED.n];
    let lent = Lent::drawn(&FRODO_RECOMMENDED, 5);
    let mut x = Exchange::of(lent.scheme, &Ours(&lent));
    let mut series = Series::of(rows, "Offer", "-1 to 0");
    for length in LENGTHS {
        let mut by_rows = ByRows::of(&lent, length);
        series.point(length, &mut || by_rows.offer(&mut x.opening));
    }
    let mut series = Series::of(rows, "Reply", "-1 to 0");
    for length in LENGTHS {
        let mut by_rows = ByRows::of(&lent, length);
        series.point(length, &mut || by_rows.reply(&x.opening, &mut x.reply, &mut x.key));
    }
}
