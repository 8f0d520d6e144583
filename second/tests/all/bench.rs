//! Bench's own answers and the order of its refusals.

use crate::generator::Generator;
use crate::inputs::Inputs;
use crate::margins::{d, wide};
use second::calls::{bench, Bench};
use second::reconcile::bcns::Rule;
use second::reconcile::newhope::{hint, key};
use second::refusal::refusal;
use second::schemes::SIX;
use second::signed::remainder;
use second::transform::transform;

#[test]
fn zero_secrets_agree_in_all_schemes() {
    for s in &SIX {
        assert_eq!(Inputs::sparse(s).bench(), Ok(Bench::Agree));
    }
}

// With A and S zero, V is S'E + E'' and W is 0, whatever E' is.

#[test]
fn differ_with_the_first_differing_bit() {
    for (row, column, bit) in [(3, 5, 29), (0, 0, 0), (7, 7, 63)] {
        let s = &SIX[2];
        let mut inputs = Inputs::sparse(s);
        // 114 terms of 9 make 1026 at one entry: hint 0 and key 1 there.
        for k in 0..114 {
            inputs.s1[row * s.n + k] = 3;
            inputs.e[k * 8 + column] = 3;
        }
        assert_eq!(inputs.bench(), Ok(Bench::Differ(bit)));
    }
}

#[test]
fn the_bit_counts_within_the_packed_key() {
    // Frodo 4 has four bits an entry; row 1, column 2 is entry 10.
    let s = &SIX[4];
    let mut inputs = Inputs::sparse(s);
    // 164 terms of 25 make 4100: hint 0 and key 2, where 0 gives key 0.
    for k in 0..164 {
        inputs.s1[s.n + k] = 5;
        inputs.e[k * 8 + 2] = 5;
    }
    assert_eq!(inputs.bench(), Ok(Bench::Differ(41)));
    // 82 terms make 2050: hint 0 and key 1.
    for k in 82..164 {
        inputs.e[k * 8 + 2] = 0;
    }
    assert_eq!(inputs.bench(), Ok(Bench::Differ(40)));
}

#[test]
fn newhope_differs_at_its_first_differing_group() {
    // s' is 16 at 0 to 23, e is 16 at the 24 entries up to 100 + 256j: s'e
    // rises by 256 an entry up to 6144 at 100 + 256j, then falls.
    let mut inputs = Inputs::sparse(&SIX[1]);
    inputs.s1[..24].fill(16);
    for j in 0..4 {
        inputs.e[77 + 256 * j..=100 + 256 * j].fill(16);
    }
    let differs = |&i: &usize| {
        let x = [256 * (i as i128 - 76); 4];
        let h = hint(x, 0);
        key(x, h) != key([0; 4], h)
    };
    let first = (77..=100).find(differs).unwrap();
    assert_eq!(inputs.bench(), Ok(Bench::Differ(first)));
}

#[test]
fn newhope_agrees_within_the_bound() {
    let mut inputs = Inputs::sparse(&SIX[1]);
    inputs.s1[0] = 16;
    inputs.e.fill(16);
    assert_eq!(inputs.bench(), Ok(Bench::Agree));
}

/// 02, request i: with noise from -51 to 51 the keys of BCNS never differ. Every
/// value is as large as it may be, with signs that are all alike, that add up at
/// one entry of d, or random; the public numbers and the coins are random.
#[test]
fn bcns_never_differs() {
    let mut generator = Generator::new(18);
    for round in 0..24 {
        let mut inputs = Inputs::random(&SIX[0], &mut generator);
        let at = generator.below(1024) as usize;
        let lists = [
            &mut inputs.s,
            &mut inputs.e,
            &mut inputs.s1,
            &mut inputs.e1,
            &mut inputs.e2,
        ];
        for (k, list) in lists.into_iter().enumerate() {
            for (i, value) in list.iter_mut().enumerate() {
                // behind the entry a product passes X^1023 and turns its sign
                let turned = (k == 0 || k == 1) && i > at;
                *value = match round % 3 {
                    0 => 51 * (1 - 2 * ((round >> k) & 1)),
                    1 if turned != (k == 3) => -51,
                    1 => 51,
                    _ => 51 * (1 - 2 * generator.below(2) as i32),
                };
            }
        }
        if round % 3 == 1 {
            let lists = [&inputs.s, &inputs.e, &inputs.s1, &inputs.e1, &inputs.e2];
            assert_eq!(d(&SIX[0], &lists.map(|list| wide(list)))[at], 5326899);
        }
        assert_eq!(inputs.bench(), Ok(Bench::Agree));
    }
}

/// In BCNS the two bits of an entry agree: w lies up to 5,326,899 from v. All of the way up to the margin is in `reconcile_bcns`.
#[test]
fn bcns_never_differs_entry_by_entry() {
    let (rule, q) = (Rule::of(&SIX[0]), SIX[0].q);
    let runs: Vec<i128> = rule.runs().iter().map(|run| run.first / 2).collect();
    let mut generator = Generator::new(19);
    for round in 0..20_000 {
        // every second v lies near an end of a run of z, where hints and keys change
        let v = match round % 2 {
            0 => i128::from(generator.below(q as u64)),
            _ => {
                let end = runs[generator.below(runs.len() as u64) as usize];
                remainder(end + i128::from(generator.below(11_000_000)) - 5_500_000, q)
            }
        };
        let d = match round % 4 {
            0 | 1 => i128::from(generator.below(2 * 5326899 + 1)) - 5326899,
            2 => 5326899,
            _ => -5326899,
        };
        let z = rule.z(v, generator.below(4) as u32);
        let w = remainder(v - d, q);
        assert_eq!(rule.peer(w, rule.hint(z)), rule.key(z), "v {v}, d {d}");
    }
}

#[test]
fn offers_refusals_come_before_replys() {
    let mut bad = Inputs::sparse(&SIX[1]);
    // From the last test to the first, each before all that follow.
    bad.e1.fill(0);
    assert_eq!(bad.bench(), Err(refusal(17, 0)));
    bad.e2[9] = 17;
    assert_eq!(bad.bench(), Err(refusal(6, 9)));
    bad.e1[8] = -17;
    assert_eq!(bad.bench(), Err(refusal(6, 8)));
    bad.s1[7] = 17;
    assert_eq!(bad.bench(), Err(refusal(6, 7)));
    bad.coins.push(0);
    assert_eq!(bad.bench(), Err(refusal(2, 0)));
    bad.e.fill(0);
    assert_eq!(bad.bench(), Err(refusal(17, 0)));
    bad.e[6] = -17;
    assert_eq!(bad.bench(), Err(refusal(6, 6)));
    bad.s[5] = i32::MIN;
    assert_eq!(bad.bench(), Err(refusal(6, 5)));
    bad.a[4] = 12289;
    assert_eq!(bad.bench(), Err(refusal(4, 4)));
    bad.seed.pop();
    assert_eq!(bad.bench(), Err(refusal(2, 0)));
    let b = &bad;
    let answer = bench(6, &b.a, &b.s, &b.e, &b.seed, &b.s1, &b.e1, &b.e2, &b.coins);
    assert_eq!(answer, Err(refusal(1, 0)));
}

#[test]
fn each_length_in_each_scheme() {
    for s in &SIX {
        let good = Inputs::sparse(s);
        let bads: [fn(&mut Inputs); 8] = [
            |i| i.a.push(0),
            |i| i.s.push(0),
            |i| i.e.push(0),
            |i| i.seed.push(0),
            |i| i.s1.push(0),
            |i| i.e1.push(0),
            |i| i.e2.push(0),
            |i| i.coins.push(0),
        ];
        for make_bad in bads {
            let mut bad = good.clone();
            make_bad(&mut bad);
            assert_eq!(bad.bench(), Err(refusal(2, 0)));
        }
        let mut short = good.clone();
        short.e2.pop();
        assert_eq!(short.bench(), Err(refusal(2, 0)));
    }
}

#[test]
fn each_value_in_each_scheme() {
    for s in &SIX {
        let good = Inputs::sparse(s);
        let beyond = s.largest_noise as i32 + 1;
        let mut bad = good.clone();
        bad.a[3] = s.q as u32;
        assert_eq!(bad.bench(), Err(refusal(4, 3)));
        let bads: [fn(&mut Inputs) -> &mut Vec<i32>; 5] = [
            |i| &mut i.s,
            |i| &mut i.e,
            |i| &mut i.s1,
            |i| &mut i.e1,
            |i| &mut i.e2,
        ];
        for values in bads {
            let mut bad = good.clone();
            values(&mut bad)[2] = -beyond;
            values(&mut bad)[4] = beyond;
            assert_eq!(bad.bench(), Err(refusal(6, 2)));
        }
    }
}

#[test]
fn the_lent_a_is_already_transformed() {
    // a = 1 is lent as all ones.
    let mut inputs = Inputs::zero(&SIX[1]);
    inputs.a.fill(1);
    inputs.s[3] = 1;
    let mut x_3 = vec![0; 1024];
    x_3[3] = 1;
    let sent: Vec<u32> = transform(&x_3).iter().map(|&x| x as u32).collect();
    assert_eq!(inputs.opening()[..1792], second::packing::pack(&sent, 14));
}
