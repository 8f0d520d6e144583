//! Makes one call as a case has it.

use super::cases::Case;
use super::good::{Call, Good};
use super::noise;
use crate::calls::{self, Bench};
use crate::reconcile::Slack;
use crate::refusal::Refusal;

/// Who makes the calls: the second program, or in rust/ the archive.
pub struct Calls {
    pub offer: fn(u64, &[u32], &[i32], &[i32], &[u8], &mut [u8]) -> Result<usize, Refusal>,
    pub reply: Reply,
    pub finish:
        fn(u64, &[u8], &[i32], &mut [u8], &mut [u8]) -> Result<(usize, usize, Slack), Refusal>,
    pub bench: Benching,
    pub noise: fn(u64, &[u8], &[u64], &mut [i32]) -> Result<usize, Refusal>,
    pub expand: fn(u32, &[u8], &mut [u32]) -> Result<usize, Refusal>,
    pub grow: fn(u32, &[u8], &mut [u32]) -> Result<usize, Refusal>,
    pub shake128: fn(&[u8], &mut [u8]) -> Result<usize, Refusal>,
    pub sha3_256: fn(&[u8], &mut [u8]) -> Result<usize, Refusal>,
}

type Reply = fn(
    u64,
    &[u8],
    &[u32],
    &[i32],
    &[i32],
    &[i32],
    &[u8],
    &mut [u8],
    &mut [u8],
    &mut [u8],
) -> Result<(usize, usize, usize), Refusal>;

type Benching = fn(
    u64,
    &[u32],
    &[i32],
    &[i32],
    &[u8],
    &[i32],
    &[i32],
    &[i32],
    &[u8],
) -> Result<(Bench, Slack), Refusal>;

pub const SECOND: Calls = Calls {
    offer: calls::offer,
    reply: calls::reply,
    finish: calls::finish,
    bench: calls::bench,
    noise: calls::noise,
    expand: calls::expand,
    grow: calls::grow,
    shake128: calls::shake128,
    sha3_256: calls::sha3_256,
};

/// What a call gives: its written counts or a refusal, all of each output, in
/// Finish and Bench the slack, and in Bench how the keys differ.
#[derive(Debug, PartialEq)]
pub struct Answer {
    pub refusal: Option<Refusal>,
    pub written: Vec<usize>,
    pub outputs: Vec<Vec<i64>>,
    /// 1 + the first differing bit; 0 where the keys agree or nothing is told.
    pub differ: usize,
    /// 0 and index 0 where nothing is told.
    pub slack: Slack,
}

/// Every byte of an output before the call, and each byte of other entries.
const BEFORE: u8 = 165;

pub fn run(good: &Good, case: &Case) -> Answer {
    run_by(&SECOND, good, case)
}

pub fn run_by(calls: &Calls, good: &Good, case: &Case) -> Answer {
    let lent = lent(good, case);
    let k = case.scheme;
    let numbers = |at: usize| entries::<u32>(&lent[at]);
    let values = |at: usize| entries::<i32>(&lent[at]);
    let bytes = |at: usize| entries::<u8>(&lent[at]);
    let room = |at: usize| vec![BEFORE; case.rooms[at]];
    match good.call {
        Call::Offer => {
            let mut message = room(0);
            let told = (calls.offer)(
                k,
                &numbers(0),
                &values(1),
                &values(2),
                &bytes(3),
                &mut message,
            );
            answer(told.map(|count| vec![count]), vec![whole(&message)])
        }
        Call::Reply => {
            let (mut message, mut key, mut digest) = (room(0), room(1), room(2));
            let told = (calls.reply)(
                k,
                &bytes(0),
                &numbers(1),
                &values(2),
                &values(3),
                &values(4),
                &bytes(5),
                &mut message,
                &mut key,
                &mut digest,
            );
            let outputs = [message, key, digest].map(|output| whole(&output));
            answer(told.map(|(m, k, d)| vec![m, k, d]), outputs.to_vec())
        }
        Call::Finish => {
            let (mut key, mut digest) = (room(0), room(1));
            let told = (calls.finish)(k, &bytes(0), &values(1), &mut key, &mut digest);
            let outputs = vec![whole(&key), whole(&digest)];
            Answer {
                slack: told.map(|(_, _, slack)| slack).unwrap_or_default(),
                ..answer(told.map(|(k, d, _)| vec![k, d]), outputs)
            }
        }
        Call::Bench => {
            let told = (calls.bench)(
                k,
                &numbers(0),
                &values(1),
                &values(2),
                &bytes(3),
                &values(4),
                &values(5),
                &values(6),
                &bytes(7),
            );
            let differ = match told {
                Ok((Bench::Differ(bit), _)) => 1 + bit,
                Ok((Bench::Agree, _)) | Err(_) => 0,
            };
            Answer {
                differ,
                slack: told.map(|(_, slack)| slack).unwrap_or_default(),
                ..answer(told.map(|_| vec![]), vec![])
            }
        }
        Call::Noise => panic!("Noise has cases of its own"),
        Call::Expand { rule } => {
            let mut numbers = vec![u32::from_ne_bytes([BEFORE; 4]); case.rooms[0]];
            let told = (calls.expand)(rule, &bytes(0), &mut numbers);
            answer(told.map(|count| vec![count]), vec![whole(&numbers)])
        }
        Call::Grow { rule } => {
            let mut numbers = vec![u32::from_ne_bytes([BEFORE; 4]); case.rooms[0]];
            let told = (calls.grow)(rule, &bytes(0), &mut numbers);
            answer(told.map(|count| vec![count]), vec![whole(&numbers)])
        }
        Call::Shake128 => {
            let mut output = room(0);
            let told = (calls.shake128)(&bytes(0), &mut output);
            answer(told.map(|count| vec![count]), vec![whole(&output)])
        }
        Call::Sha3256 => {
            let mut output = room(0);
            let told = (calls.sha3_256)(&bytes(0), &mut output);
            answer(told.map(|count| vec![count]), vec![whole(&output)])
        }
    }
}

/// Noise, whose cases are of its own kind.
pub fn noise(case: &noise::Case) -> Answer {
    noise_by(&SECOND, case)
}

pub fn noise_by(calls: &Calls, case: &noise::Case) -> Answer {
    let mut values = vec![i32::from_ne_bytes([BEFORE; 4]); case.room];
    let told = (calls.noise)(case.scheme, &case.bytes, &case.table, &mut values);
    answer(told.map(|count| vec![count]), vec![whole(&values)])
}

/// The inputs as the case has them.
pub fn lent(good: &Good, case: &Case) -> Vec<Vec<i64>> {
    let mut inputs = good.inputs.clone();
    for &input in &case.zeros {
        inputs[input].zero();
    }
    for change in &case.changes {
        inputs[change.input].change(change.index, change.value);
    }
    if let Some(other) = case.hints {
        inputs[0].other_hints(other);
    }
    for (input, &length) in inputs.iter_mut().zip(&case.lengths) {
        input.entries.truncate(length);
    }
    inputs.into_iter().map(|input| input.entries).collect()
}

/// A list as the call takes it.
fn entries<T: TryFrom<i64>>(list: &[i64]) -> Vec<T> {
    let entry = |&entry| T::try_from(entry).ok().expect("an entry fits its list");
    list.iter().map(entry).collect()
}

/// An output as the call leaves it.
fn whole<T: Copy + Into<i64>>(output: &[T]) -> Vec<i64> {
    output.iter().map(|&entry| entry.into()).collect()
}

fn answer(told: Result<Vec<usize>, Refusal>, outputs: Vec<Vec<i64>>) -> Answer {
    let (refusal, written) = match told {
        Ok(written) => (None, written),
        Err(refusal) => (Some(refusal), vec![0; outputs.len()]),
    };
    Answer {
        refusal,
        written,
        outputs,
        differ: 0,
        slack: Slack::default(),
    }
}
