//! Products by halves, held to the second program's plain rule on all of its
//! cases: every length, rooms and scratch of every kind, refusals. Output and
//! scratch hold a pattern before, and guards stand around all four buffers.

use crate::lent::Lent;
use second::products::{cases, scratch_count, Case, LENGTHS};
use wimmostry::product;

fn held(case: &Case, pattern: u32) {
    let (a, b) = (Lent::new(&case.a, 7), Lent::new(&case.b, 7));
    let mut out = Lent::new(&vec![pattern; case.room], 9);
    let mut scratch = Lent::new(&vec![!pattern; case.scratch], 9);
    let told = product(
        a.entries(),
        b.entries(),
        out.entries_mut(),
        scratch.entries_mut(),
    );
    let expected = case.expected();
    let told = told.map_err(|r| (r.number(), r.place()));
    assert_eq!(told, expected.told.map_err(|r| (r.number, r.place)));
    out.holds(&expected.out);
    scratch.holds(&vec![0; case.scratch]);
    a.holds(&case.a);
    b.holds(&case.b);
}

#[test]
fn every_case() {
    for (seed, pattern) in [(1, 0xA5A5A5A5), (2, u32::MAX)] {
        for case in cases(seed) {
            held(&case, pattern);
        }
    }
}

/// No number of the scratch decides anything, and a scratch that was used
/// serves again.
#[test]
fn one_scratch_for_all() {
    let mut scratch = vec![u32::MAX; scratch_count(1024)];
    for case in cases(3)
        .iter()
        .filter(|case| LENGTHS.contains(&case.a.len()))
    {
        let expected = Case {
            scratch: scratch.len(),
            ..case.clone()
        }
        .expected();
        let mut out = vec![1; case.room];
        let told = product(&case.a, &case.b, &mut out, &mut scratch);
        assert_eq!(told.is_ok(), expected.told.is_ok());
        assert_eq!(out, expected.out);
        assert!(scratch.iter().all(|&x| x == 0));
    }
}
