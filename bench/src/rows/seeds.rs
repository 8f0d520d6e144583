//! The hashes, Grow, and NewHope from a seed and random bytes to digests.

use super::Rows;
#[cfg(botan)]
use crate::botan;
use crate::draw::Draw;
use crate::grown::seeds;
use crate::plain::{keccak, sampling};
use second::expand::Rule;

pub type Hash = fn(&[u8], &mut [u8]);

struct Hashes {
    name: &'static str,
    shake128: Hash,
    sha3_256: Hash,
}

const PEERS: &[Hashes] = &[
    Hashes { name: "plain code", shake128: keccak::shake128, sha3_256: keccak::sha3_256 },
    #[cfg(botan)]
    Hashes { name: "Botan", shake128: botan::shake128, sha3_256: botan::sha3_256 },
];

pub fn shake128(input: &[u8], out: &mut [u8]) {
    assert!(wimmostry::raw::shake128(input, out).is_ok());
}

pub fn sha3_256(input: &[u8], out: &mut [u8]) {
    assert!(wimmostry::raw::sha3_256(input, out).is_ok());
}

fn hash(rows: &mut dyn Rows, what: &str, peer: &str, lengths: (usize, usize), ours: Hash, theirs: Hash) {
    let input = Draw::new(8).bytes(lengths.0);
    let (mut x, mut y) = (vec![0; lengths.1], vec![0; lengths.1]);
    ours(&input, &mut x);
    theirs(&input, &mut y);
    assert!(x == y, "the two give the same bytes");
    rows.row(what, peer, &mut || ours(&input, &mut x), &mut || theirs(&input, &mut y));
}

fn hashes(rows: &mut dyn Rows, peer: &Hashes) {
    hash(rows, "SHAKE-128, 64 KiB in, 32 bytes out", peer.name, (65536, 32), shake128, peer.shake128);
    hash(rows, "SHAKE-128, 32 bytes in, 64 KiB out", peer.name, (32, 65536), shake128, peer.shake128);
    hash(rows, "SHAKE-128, 32 bytes in and out", peer.name, (32, 32), shake128, peer.shake128);
    hash(rows, "SHA3-256 of 64 KiB", peer.name, (65536, 32), sha3_256, peer.sha3_256);
    hash(rows, "SHA3-256 of 32 bytes", peer.name, (32, 32), sha3_256, peer.sha3_256);
}

fn grow(rows: &mut dyn Rows, peer: &str, theirs: &mut dyn FnMut(&[u8; 32], &mut [u32; 1024])) {
    let (seeds, mut x, mut y) = (seeds(), [0; 1024], [0; 1024]);
    let ours = |seed: &[u8; 32], out: &mut [u32; 1024]| assert!(wimmostry::raw::grow(14, seed, out).is_ok());
    for seed in &seeds {
        ours(seed, &mut x);
        theirs(seed, &mut y);
        assert!(x == y, "the two give the same numbers");
    }
    let (mut one, mut other) = (seeds.iter().cycle(), seeds.iter().cycle());
    rows.row("Grow by rule 14", peer, &mut || ours(one.next().unwrap(), &mut x), &mut || theirs(other.next().unwrap(), &mut y));
}

/// 17 blocks are enough for these seeds, as for nearly all.
fn grow_plain(rows: &mut dyn Rows) {
    let mut stream = [0; 17 * 168];
    grow(rows, "plain code, 17 blocks", &mut |seed, out| {
        keccak::shake128(seed, &mut stream);
        assert!(sampling::expand(Rule::LowBits, &stream, out) == 1024);
    });
}

/// As Botan's NewHope makes them, 16 blocks at a time; that part of it cannot be
/// called by itself.
#[cfg(botan)]
fn grow_botan(rows: &mut dyn Rows) {
    let mut blocks = [0; 16 * 168];
    grow(rows, "Botan's SHAKE-128, 16 or 32 blocks, and plain code", &mut |seed, out| {
        let (mut stream, mut taken) = (botan::Stream::of(seed), 0);
        while taken < 1024 {
            stream.more(&mut blocks);
            taken += sampling::expand(Rule::LowBits, &blocks, &mut out[taken..]);
        }
    });
}

/// What an exchange gives: both messages, and both ends' digests.
#[cfg(botan)]
type Exchange = ([u8; 1824], [u8; 2048], [u8; 32], [u8; 32]);

/// Both ends' work on the same seeds and random bytes: both programs give the
/// same messages and digests. Finish starts from the reply in any case, and has
/// its row among the calls.
#[cfg(botan)]
fn exchange(rows: &mut dyn Rows) {
    use crate::botan::Botan;
    use crate::grown::{Grown, Random};
    let (random, seeds) = (Random::drawn(10), seeds());
    let (ours, theirs) = (Grown(random.reordered()), Botan::new(false, &random));
    let whole = |seed: &[u8; 32], x: &mut Exchange| {
        let s = ours.offer(seed, &mut x.0);
        ours.reply(&x.0, &mut x.1, &mut x.2);
        ours.finish(&x.1, &s, &mut x.3);
    };
    let botans = |seed: &[u8; 32], y: &mut Exchange| {
        theirs.offer(seed, &mut y.0);
        theirs.reply(&y.0, &mut y.1, &mut y.2);
        theirs.finish(&y.1, &mut y.3);
    };
    let room = || ([0; 1824], [0; 2048], [0; 32], [0; 32]);
    let (mut x, mut y) = (room(), room());
    for seed in &seeds {
        whole(seed, &mut x);
        botans(seed, &mut y);
        assert!(x == y, "the two give one exchange");
        assert!(x.2 == x.3, "both ends have one digest");
    }
    let turns = || (seeds.iter().cycle(), seeds.iter().cycle());
    let (mut one, mut other) = turns();
    let mut three = || whole(one.next().unwrap(), &mut x);
    rows.row("NewHope from bytes, the exchange", "Botan, the three whole calls", &mut three, &mut || botans(other.next().unwrap(), &mut y));
    let (mut one, mut other) = turns();
    let mut offer = || _ = ours.offer(one.next().unwrap(), &mut x.0);
    rows.row("NewHope from bytes, Offer", "Botan, whole call", &mut offer, &mut || theirs.offer(other.next().unwrap(), &mut y.0));
    let openings = theirs.openings(&seeds);
    let (mut one, mut other) = (openings.iter().cycle(), openings.iter().cycle());
    let mut reply = || ours.reply(one.next().unwrap(), &mut x.1, &mut x.2);
    rows.row("NewHope from bytes, Reply", "Botan, whole call", &mut reply, &mut || theirs.reply(other.next().unwrap(), &mut y.1, &mut y.2));
}

pub fn rows(rows: &mut dyn Rows) {
    PEERS.iter().for_each(|peer| hashes(rows, peer));
    grow_plain(rows);
    #[cfg(botan)]
    {
        grow_botan(rows);
        exchange(rows);
    }
}
