//! Every call in every scheme, as a program in another language makes it: the
//! inputs are tested and the outputs zeroed. The plain code does neither.

use super::Rows;
use crate::draw::Draw;
use crate::lent::{table, Lent};
use crate::ours::Ours;
use crate::plain::bcns::Bcns;
use crate::plain::frodo::Frodo;
use crate::plain::newhope::NewHope;
use crate::plain::{polynomial, sampling, Calls};
use second::expand::Rule;
use second::schemes::{Family, Scheme, SIX};

/// Its stream and its hash are others than ours, and so are the bytes that it gives.
pub const WITH_AES: &str = "Botan with AES, whole call";

/// What an exchange gives.
#[derive(PartialEq)]
pub struct Exchange {
    pub opening: Vec<u8>,
    pub reply: Vec<u8>,
    pub key: Vec<u8>,
    pub peer: Vec<u8>,
}

impl Exchange {
    pub fn of(scheme: &Scheme, calls: &dyn Calls) -> Exchange {
        let mut exchange = Exchange::room(scheme);
        exchange.run(calls);
        exchange
    }

    fn room(scheme: &Scheme) -> Exchange {
        let key = vec![0; scheme.key_bytes];
        Exchange { opening: vec![0; scheme.opening_bytes()], reply: vec![0; scheme.reply_bytes()], key: key.clone(), peer: key }
    }

    fn run(&mut self, calls: &dyn Calls) {
        calls.offer(&mut self.opening);
        calls.reply(&self.opening, &mut self.reply, &mut self.key);
        calls.finish(&self.reply, &mut self.peer);
    }
}

/// The three calls against one other program's, then Bench against all three.
fn exchange(rows: &mut dyn Rows, lent: &Lent, peer: &str, plain: &dyn Calls) {
    let ours = Ours(lent);
    let (mut x, mut y) = (Exchange::of(lent.scheme, &ours), Exchange::of(lent.scheme, plain));
    assert!(x == y, "the two give one exchange");
    assert!(x.key == x.peer && ours.bench(), "both ends have one key");

    let name = lent.scheme.name;
    rows.row(&format!("{name}, Offer"), peer, &mut || ours.offer(&mut x.opening), &mut || plain.offer(&mut y.opening));
    rows.row(&format!("{name}, Reply"), peer, &mut || ours.reply(&x.opening, &mut x.reply, &mut x.key), &mut || {
        plain.reply(&y.opening, &mut y.reply, &mut y.key);
    });
    rows.row(&format!("{name}, Finish"), peer, &mut || ours.finish(&x.reply, &mut x.peer), &mut || plain.finish(&y.reply, &mut y.peer));
    rows.row(&format!("{name}, Bench"), &format!("{peer}, the three calls"), &mut || assert!(ours.bench()), &mut || y.run(plain));
}

/// Finish against one that has the transform of s already.
fn kept(rows: &mut dyn Rows, lent: &Lent, plain: &NewHope) {
    let ours = Ours(lent);
    let mut x = Exchange::of(lent.scheme, &ours);
    let (s, mut key) = (plain.kept(), vec![0; 32]);
    plain.finish_kept(&x.reply, &s, &mut key);
    assert!(key == x.peer, "the two give one key");
    rows.row("NewHope, Finish", "the same, s kept transformed", &mut || ours.finish(&x.reply, &mut x.peer), &mut || {
        plain.finish_kept(&x.reply, &s, &mut key);
    });
}

/// Botan's whole calls: they make a from the seed and noise from random bytes,
/// and Finish has the transform of s already. Both hash the key.
#[cfg(botan)]
fn botan(rows: &mut dyn Rows, lent: &Lent, peer: &str, boring: bool) {
    use crate::botan::Botan;
    use crate::grown::{seeds, Random};
    let ours = Ours(lent);
    let mut x = Exchange::of(lent.scheme, &ours);
    let (random, seeds) = (Random::drawn(10), seeds());
    let theirs = Botan::new(boring, &random);
    let openings = theirs.openings(&seeds);
    let (mut seed, mut received) = (seeds.iter().cycle(), openings.iter().cycle());
    let (mut opening, mut reply, mut key, mut own) = ([0; 1824], [0; 2048], [0; 32], [0; 32]);
    rows.row("NewHope, Offer", peer, &mut || ours.offer(&mut x.opening), &mut || theirs.offer(seed.next().unwrap(), &mut opening));
    rows.row("NewHope, Reply", peer, &mut || ours.reply(&x.opening, &mut x.reply, &mut x.key), &mut || {
        theirs.reply(received.next().unwrap(), &mut reply, &mut key);
    });
    theirs.reply(&openings[0], &mut reply, &mut key);
    rows.row("NewHope, Finish", peer, &mut || ours.finish(&x.reply, &mut x.peer), &mut || theirs.finish(&reply, &mut own));
    theirs.finish(&reply, &mut own);
    assert!(key == own, "Botan's ends have one key");
}

#[cfg(not(botan))]
fn botan(_: &mut dyn Rows, _: &Lent, _: &str, _: bool) {}

fn scheme(rows: &mut dyn Rows, scheme: &'static Scheme) {
    let lent = Lent::drawn(scheme, 5);
    match scheme.family {
        Family::Bcns => {
            exchange(rows, &lent, "plain rule", &Bcns { lent: &lent, mix: polynomial::mix });
            exchange(rows, &lent, "whole windows, a division an entry", &Bcns { lent: &lent, mix: polynomial::mix_by_windows });
            exchange(rows, &lent, "the same halves", &Bcns { lent: &lent, mix: polynomial::mix_by_halves });
        }
        Family::NewHope => {
            let plain = NewHope::of(&lent);
            exchange(rows, &lent, "published method", &plain);
            kept(rows, &lent, &plain);
            botan(rows, &lent, "Botan, whole call", false);
            botan(rows, &lent, WITH_AES, true);
        }
        Family::Frodo => exchange(rows, &lent, "16-bit words", &Frodo::of(&lent)),
    }
}

/// The plain code for the noise of bytes by a table.
type Plain<'a> = &'a dyn Fn(&[u8], &[u64], &mut [i32]);

fn noise(rows: &mut dyn Rows, scheme: &Scheme, peer: &str, plain: Plain) {
    let count = scheme.secret_count();
    let (bytes, table) = (Draw::new(6).bytes(second::noise::lengths(scheme)[0]), table(scheme));
    let (mut x, mut y) = (vec![0; count], vec![0; count]);
    let mut ours = || assert!(wimmostry::raw::noise(scheme.number as u32, &bytes, &table, &mut x).is_ok());
    let mut plain = || plain(&bytes, &table, &mut y);
    ours();
    plain();
    rows.row(&format!("{}, Noise", scheme.name), peer, &mut ours, &mut plain);
    assert!(x == y, "the two give one noise");
}

/// In BCNS beside a search that ends early too.
fn noises(rows: &mut dyn Rows, scheme: &Scheme) {
    if scheme.family == Family::Bcns {
        noise(rows, scheme, "every entry, by its borrow", &sampling::bcns);
        noise(rows, scheme, "a search that stops early", &sampling::bcns_early);
    } else {
        noise(rows, scheme, "published method", &|bytes, table, out| sampling::noise(scheme, bytes, table, out));
    }
}

/// The streams are the same for both rules. They are taken in turn, since a processor learns by heart
/// which words of one stream are passed over, and a box is lent another each time.
fn expand(rows: &mut dyn Rows, number: u32) {
    let rule = Rule::of(number).expect("one of two");
    let streams: Vec<_> = (0..64).map(|k| Draw::new(700 + k).bytes(4096)).collect();
    let (mut x, mut y) = ([0; 1024], [0; 1024]);
    for stream in &streams {
        assert!(wimmostry::raw::expand(number, stream, &mut x).is_ok());
        assert!(sampling::expand(rule, stream, &mut y) == 1024);
        assert!(x == y, "the two give the same numbers");
    }
    let (mut one, mut other) = (streams.iter().cycle(), streams.iter().cycle());
    let mut ours = || assert!(wimmostry::raw::expand(number, one.next().unwrap(), &mut x).is_ok());
    let mut plain = || assert!(sampling::expand(rule, other.next().unwrap(), &mut y) == 1024);
    rows.row(&format!("Expand by rule {number}"), "published method", &mut ours, &mut plain);
}

pub fn rows(rows: &mut dyn Rows) {
    SIX.iter().for_each(|it| scheme(rows, it));
    SIX.iter().for_each(|it| noises(rows, it));
    [14, 16].into_iter().for_each(|rule| expand(rows, rule));
}
