//! docs/AGREEMENT.md, "Worked runs": Bench near the margin, on both sides where
//! that is possible.

use crate::calls::{self, Bench};
use crate::reconcile::Slack;
use crate::refusal::Refusal;
use crate::schemes::{Family, Scheme, BCNS, NEWHOPE, SIX};

/// What Bench is lent in one run.
pub struct Run {
    pub scheme: &'static Scheme,
    pub name: &'static str,
    pub a: Vec<u32>,
    pub s: Vec<i32>,
    pub e: Vec<i32>,
    pub seed: Vec<u8>,
    pub s1: Vec<i32>,
    pub e1: Vec<i32>,
    pub e2: Vec<i32>,
    pub coins: Vec<u8>,
}

/// All runs in the page's order, one line each.
pub fn margins() -> Vec<String> {
    runs().iter().map(Run::line).collect()
}

/// BCNS has no side beyond.
pub fn runs() -> Vec<Run> {
    let mut answer = vec![];
    for scheme in &SIX {
        match scheme.family {
            Family::Bcns => answer.push(bcns()),
            Family::NewHope => answer.extend([newhope("at", -1804), newhope("beyond", -1805)]),
            Family::Frodo => {
                let t = quarter(scheme);
                answer.extend([frodo(scheme, "at", t), frodo(scheme, "beyond", t + 1)]);
            }
        }
    }
    answer
}

impl Run {
    /// "What is not said is zero"; the coins are 255 but in BCNS.
    fn of(scheme: &'static Scheme, name: &'static str) -> Run {
        let secrets = vec![0; scheme.secret_count()];
        let coin = match scheme.family {
            Family::Bcns => 0,
            Family::NewHope | Family::Frodo => 255,
        };
        Run {
            scheme,
            name,
            a: vec![0; scheme.public_count()],
            s: secrets.clone(),
            e: secrets.clone(),
            seed: vec![0; scheme.seed_bytes()],
            s1: secrets.clone(),
            e1: secrets,
            e2: vec![0; scheme.last_noise_count()],
            coins: vec![coin; scheme.coin_bytes()],
        }
    }

    pub fn bench(&self) -> Result<(Bench, Slack), Refusal> {
        let r = self;
        let scheme = r.scheme.number;
        calls::bench(
            scheme, &r.a, &r.s, &r.e, &r.seed, &r.s1, &r.e1, &r.e2, &r.coins,
        )
    }

    fn line(&self) -> String {
        let (scheme, name) = (self.scheme.number, self.name);
        let answer = match self.bench() {
            Ok((Bench::Agree, _)) => "agree".to_string(),
            Ok((Bench::Differ(bit), _)) => format!("differ={bit}"),
            Err(Refusal { number, place }) => format!("refusal={number} place={place}"),
        };
        format!("bench scheme={scheme} run={name} {answer}")
    }
}

/// All that d is made of has the largest size, and the signs add up.
fn bcns() -> Run {
    let mut run = Run::of(&BCNS, "largest");
    run.a.fill(1);
    for list in [&mut run.s, &mut run.e, &mut run.s1, &mut run.e2] {
        list.fill(51);
    }
    run.e1.fill(-51);
    run
}

/// A quarter of the rounding interval q/2^B.
fn quarter(scheme: &Scheme) -> i32 {
    let b = scheme.b.expect("B is Frodo's");
    (scheme.q >> b) as i32 / 4
}

/// V is zero and W is zero but for -t in its first place.
fn frodo(scheme: &'static Scheme, name: &'static str, t: i32) -> Run {
    let mut run = Run::of(scheme, name);
    let public = |i: usize| ((7 * i + 1) % scheme.q as usize) as u32;
    run.a = (0..scheme.public_count()).map(public).collect();
    run.e.fill(1);
    let b = scheme.largest_noise as i32;
    let (full, r) = ((t / (b * b)) as usize, t % (b * b));
    for k in 0..full {
        run.meet(k, b, -b);
    }
    run.meet(full, b, -(r / b));
    run.meet(full + 1, 1, -(r % b));
    run
}

impl Run {
    /// The k-th entries of the first row of E' and the first column of S.
    fn meet(&mut self, k: usize, e1: i32, s: i32) {
        self.e1[k] = e1;
        self.s[8 * k] = s;
    }
}

/// v and w have their targets at the four entries of group 0; the third of w
/// is told.
fn newhope(name: &'static str, third: i32) -> Run {
    let mut run = Run::of(&NEWHOPE, name);
    run.s1[..32].fill(16);
    run.s[..32].fill(16);
    run.s[32] = 1;
    for (j, target) in [4240, 4346, 499, 3202].into_iter().enumerate() {
        let rest = spread(&mut run.e, 256 * j, target);
        run.e2[256 * j] = rest;
    }
    for (j, target) in [1936, 2042, third, 899].into_iter().enumerate() {
        let rest = spread(&mut run.e1, 256 * j, target);
        put(&mut run.e1, 256 * j, 32, rest);
    }
    run
}

/// With target = 16 S + R, spreads S over the entry at the index and the 31
/// before it; R.
fn spread(noise: &mut [i32], index: usize, target: i32) -> i32 {
    let s = target.div_euclid(16);
    for i in 0..32 {
        let part = (s * (i + 1)).div_euclid(32) - (s * i).div_euclid(32);
        put(noise, index, i as usize, part);
    }
    target.rem_euclid(16)
}

/// Sets the entry so many before the index; below 0 it is the one 1024 later
/// with the other sign.
fn put(noise: &mut [i32], index: usize, before: usize, value: i32) {
    if before <= index {
        noise[index - before] = value;
    } else {
        noise[index + 1024 - before] = -value;
    }
}
