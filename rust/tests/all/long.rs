//! The second program's long list, each case through the archive.

use crate::calls;
use second::long::run::{noise, noise_by, run, run_by, Calls};
use second::long::{noise::cases, of_no_scheme, of_scheme, Group};
use second::reconcile::Slack;
use second::refusal::refusal;
use second::schemes::{Scheme, SIX};
use std::thread;
use wimmostry::raw;

fn told<T>(answer: Result<T, wimmostry::Refusal>) -> Result<T, second::refusal::Refusal> {
    answer.map_err(|r| refusal(r.number(), r.place()))
}

fn number(scheme: u64) -> u32 {
    u32::try_from(scheme).unwrap()
}

fn slack(slack: raw::Slack) -> Slack {
    Slack {
        largest: slack.largest,
        index: slack.index,
    }
}

const ARCHIVE: Calls = Calls {
    offer: |k, a, s, e, seed, message| told(raw::offer(number(k), a, s, e, seed, message)),
    reply: |k, opening, a, s1, e1, e2, coins, message, key, digest| {
        let k = number(k);
        told(calls::reply(
            k, opening, a, s1, e1, e2, coins, message, key, digest,
        ))
    },
    finish: |k, reply, s, key, digest| {
        let answer = calls::finish(number(k), reply, s, key, digest);
        told(answer.map(|(key, digest, used)| (key, digest, slack(used))))
    },
    bench: |k, a, s, e, seed, s1, e1, e2, coins| {
        let answer = raw::bench(number(k), a, s, e, seed, s1, e1, e2, coins);
        let found = |found| match found {
            raw::Bench::Agree => second::calls::Bench::Agree,
            raw::Bench::Differ(bit) => second::calls::Bench::Differ(bit),
        };
        told(answer.map(|(keys, used)| (found(keys), slack(used))))
    },
    noise: |k, bytes, table, values| told(raw::noise(number(k), bytes, table, values)),
    expand: |rule, stream, numbers| told(raw::expand(rule, stream, numbers)),
    grow: |rule, seed, numbers| told(raw::grow(rule, seed, numbers)),
    shake128: |input, output| told(raw::shake128(input, output)),
    sha3_256: |input, output| told(raw::sha3_256(input, output)),
};

/// How many cases were run.
fn held(groups: &[Group]) -> usize {
    let mut count = 0;
    for (good, cases) in groups {
        for (name, case) in cases {
            let same = run_by(&ARCHIVE, good, case) == run(good, case);
            assert!(same, "{:?} {name} in scheme {}", good.call, case.scheme);
            count += 1;
        }
    }
    count
}

fn noise_held(scheme: &Scheme) -> usize {
    let cases = cases(scheme);
    for (at, case) in cases.iter().enumerate() {
        let same = noise_by(&ARCHIVE, case) == noise(case);
        assert!(same, "Noise {at} in scheme {}", scheme.number);
    }
    cases.len()
}

#[test]
fn the_long_list() {
    let cases = thread::scope(|scope| {
        let schemes = SIX
            .each_ref()
            .map(|scheme| scope.spawn(|| held(&of_scheme(scheme)) + noise_held(scheme)));
        let counts = schemes.into_iter().map(|count| count.join().unwrap());
        counts.sum::<usize>() + held(&of_no_scheme())
    });
    assert_eq!(cases, 2930);
}
