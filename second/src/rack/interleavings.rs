//! Calls of all studios in any order, to hold another program to, the same in
//! every run.

use super::{clear, close, slot, BYTES, RECORD, STUDIOS};
use crate::reconcile::Slack;
use crate::refusal::Refusal;
use crate::session::{in_no_stage, parse, Call, Name, Seen, Stage};
use crate::vectors::draw::Stream;

/// A call for a studio, or Clear where there is none; all that its caller sees,
/// and the rack after it.
#[derive(Clone, Debug)]
pub struct Step<'a> {
    pub studio: u64,
    pub call: Option<&'a Call>,
    pub seen: Seen,
    pub after: Vec<u8>,
}

/// So many calls, from an empty rack on. Half of them fit the studio's stage as it
/// is, if any of the calls does; few are for a studio that there is not, and fewer
/// still are Clear.
pub fn interleavings(calls: &[Call], seed: u64, count: usize) -> Vec<Step<'_>> {
    let mut stream = Stream::new(seed);
    let mut rack = vec![0; BYTES];
    clear(&mut rack).expect("a rack of the right length");
    let mut steps: Vec<Step> = vec![];
    while steps.len() < count {
        let studio = studio(&mut stream);
        let call = match stream.below(500) {
            0 => None,
            _ => Some(any(&mut stream, calls, &mut rack, studio)),
        };
        let seen = match call {
            None => told(clear(&mut rack)),
            Some(call) => run(call, &mut rack, studio),
        };
        steps.push(Step {
            studio,
            call,
            seen,
            after: rack.clone(),
        });
    }
    steps
}

/// The call for a studio in a rack.
pub fn run(call: &Call, rack: &mut [u8], studio: u64) -> Seen {
    if call.name() == Name::Close {
        return told(close(rack, studio));
    }
    match slot(rack, studio) {
        Ok(session) => call.run(session),
        Err(refusal) => call.refused(refusal),
    }
}

/// What the caller of Close or Clear sees.
fn told(done: Result<(), Refusal>) -> Seen {
    Seen {
        refusal: done.err(),
        written: vec![],
        outputs: vec![],
        slack: Slack::default(),
    }
}

fn studio(stream: &mut Stream) -> u64 {
    let none = [8, 9, 255, 256, 264, 2147483648, 4294967295];
    match stream.below(20) {
        0 => none[stream.below(none.len() as u64) as usize],
        _ => stream.below(STUDIOS as u64),
    }
}

/// Any of the calls, or half the time any of those that fit.
fn any<'a>(stream: &mut Stream, calls: &'a [Call], rack: &mut [u8], studio: u64) -> &'a Call {
    let session = slot(rack, studio).ok().and_then(|session| parse(session));
    let fits = |call: &&Call| match (session.map(|session| session.stage), call.name()) {
        (Some(Stage::Idle), Name::Offer | Name::Reply) => true,
        (Some(Stage::Offered(with)), Name::Finish) => with.number == call.scheme,
        (Some(Stage::Keyed(_)), Name::Close) => true,
        _ => false,
    };
    let fitting: Vec<&Call> = calls.iter().filter(fits).collect();
    if fitting.is_empty() || stream.below(2) == 0 {
        &calls[stream.below(1 << 20) as usize % calls.len()]
    } else {
        fitting[stream.below(1 << 20) as usize % fitting.len()]
    }
}

/// Racks of other lengths, with other numbers, and with slots in no stage.
pub fn odd_racks() -> Vec<Vec<u8>> {
    let lengths = [0, 1, 130, 131, 132, 1040, BYTES - 1, BYTES + 1, 2 * BYTES];
    let mut racks: Vec<Vec<u8>> = lengths.iter().map(|&length| vec![0; length]).collect();
    let mut empty = vec![0; BYTES];
    // All zero: only slot 0 has its number.
    racks.push(empty.clone());
    racks.push(vec![255; BYTES]);
    clear(&mut empty).expect("a rack of the right length");
    let mut longer = empty.clone();
    longer.push(0);
    racks.push(longer);
    racks.push(empty[..BYTES - 1].to_vec());
    for studio in 0..STUDIOS {
        let mut rack = empty.clone();
        // Another number, and its own in its neighbour's slot too.
        rack[studio * RECORD] ^= 8;
        rack[(studio + 1) % STUDIOS * RECORD] = studio as u8;
        racks.push(rack);
    }
    // One slot in no stage, or all.
    let whole = in_no_stage()
        .into_iter()
        .filter(|lent| lent.len() == RECORD - 1);
    for (at, lent) in whole.enumerate() {
        let mut rack = empty.clone();
        rack[at % STUDIOS * RECORD + 1..][..RECORD - 1].copy_from_slice(&lent);
        racks.push(rack);
        let records = (0..STUDIOS as u8).flat_map(|studio| [&[studio][..], &lent].concat());
        racks.push(records.collect());
    }
    racks
}
