//! Every call held to the second program, on random inputs and on damaged ones:
//! the answer, every output from end to end, and the guards around every buffer.

use crate::damage;
use crate::generator::Generator;
use crate::inputs::Inputs;
use crate::lent::Lent;
use second::schemes::{Family, Scheme, SIX};
use std::collections::BTreeSet;
use std::fmt::Debug;
use std::ops::Range;
use wimmostry::raw::{BcnsBench, Bench};

/// Inputs of all calls of a scheme, and the messages that they give.
struct Ready {
    inputs: Inputs,
    opening: Vec<u8>,
    reply: Vec<u8>,
}

impl Ready {
    fn new(inputs: Inputs) -> Ready {
        let opening = inputs.opening();
        let (reply, _) = inputs.reply_and_key(&opening);
        Ready {
            inputs,
            opening,
            reply,
        }
    }
}

/// For each scheme random inputs, and such with all values at the largest
/// noise, where the keys may differ.
fn ready() -> Vec<Ready> {
    let both = |scheme: &'static Scheme| {
        let random = Inputs::random(scheme, &mut Generator::new(scheme.number));
        let mut largest = random.clone();
        let i = &mut largest;
        for values in [&mut i.s, &mut i.e, &mut i.s1, &mut i.e1, &mut i.e2] {
            for value in values {
                let sign = if *value < 0 { -1 } else { 1 };
                *value = sign * scheme.largest_noise as i32;
            }
        }
        [Ready::new(random), Ready::new(largest)]
    };
    SIX.iter().flat_map(both).collect()
}

/// How many damages a call's inputs get. The second program's products are
/// slow in Frodo, so that fewer calls there are left whole.
fn damages(g: &mut Generator, scheme: &Scheme) -> u64 {
    let whole = match scheme.family {
        Family::Frodo => g.below(16) == 0,
        _ => g.below(4) == 0,
    };
    if whole {
        0
    } else {
        1 + g.below(3)
    }
}

/// The refusal's number, 0 for none.
fn same<T: Debug + PartialEq>(
    answer: Result<T, wimmostry::Refusal>,
    expected: Result<T, second::refusal::Refusal>,
) -> u32 {
    let answer = answer.map_err(|r| (r.number(), r.place()));
    assert_eq!(answer, expected.map_err(|r| (r.number, r.place)));
    answer.map_or_else(|(number, _)| number, |_| 0)
}

fn number(scheme: &Scheme) -> u32 {
    scheme.number as u32
}

/// Where the packed part of an opening starts.
fn start(scheme: &Scheme) -> usize {
    match scheme.family {
        Family::Frodo => scheme.seed_bytes(),
        _ => 0,
    }
}

/// A message's packed part.
fn packed(scheme: &Scheme, start: usize) -> Range<usize> {
    start..start + scheme.packed_bytes()
}

fn offer(g: &mut Generator, ready: &Ready) -> u32 {
    let (i, fixed) = (&ready.inputs, ready.inputs.scheme);
    let (q, largest) = (fixed.q as u32, fixed.largest_noise as i32);
    let (mut scheme, mut room) = (number(fixed), fixed.opening_bytes() + 3);
    let (mut a, mut s, mut e) = (i.a.clone(), i.s.clone(), i.e.clone());
    let mut seed = i.seed.clone();
    for _ in 0..damages(g, fixed) {
        match g.below(11) {
            0 => scheme = damage::scheme(g),
            1 => damage::length(g, &mut a),
            2 => damage::length(g, &mut s),
            3 => damage::length(g, &mut e),
            4 => damage::length(g, &mut seed),
            5 => damage::public(g, &mut a, q),
            6 => damage::secret(g, &mut s, largest),
            7 => damage::secret(g, &mut e, largest),
            8 => room = damage::room(g, fixed.opening_bytes()),
            _ => damage::zero(g, &mut s, &mut e),
        }
    }

    let (la, ls, le) = (Lent::new(&a, 7), Lent::new(&s, 7), Lent::new(&e, 7));
    let lseed = Lent::new(&seed, 7);
    let mut expected = g.bytes(room);
    let mut message = Lent::new(&expected, 9);
    let told = same(
        wimmostry::raw::offer(
            scheme,
            la.entries(),
            ls.entries(),
            le.entries(),
            lseed.entries(),
            message.entries_mut(),
        ),
        second::calls::offer(scheme.into(), &a, &s, &e, &seed, &mut expected),
    );
    message.holds(&expected);
    la.holds(&a);
    ls.holds(&s);
    le.holds(&e);
    lseed.holds(&seed);
    told
}

fn reply(g: &mut Generator, ready: &Ready) -> u32 {
    let (i, fixed) = (&ready.inputs, ready.inputs.scheme);
    let (q, largest) = (fixed.q as u32, fixed.largest_noise as i32);
    let (mut scheme, mut room) = (number(fixed), fixed.reply_bytes() + 3);
    let (mut key_room, mut digest_room) = (fixed.key_bytes + 3, 32 + 3);
    let (mut opening, mut a) = (ready.opening.clone(), i.a.clone());
    let (mut s1, mut e1, mut e2) = (i.s1.clone(), i.e1.clone(), i.e2.clone());
    let mut coins = i.coins.clone();
    for _ in 0..damages(g, fixed) {
        match g.below(21) {
            0 => scheme = damage::scheme(g),
            1 => damage::length(g, &mut opening),
            2 => damage::length(g, &mut a),
            3 => damage::length(g, &mut s1),
            4 => damage::length(g, &mut e1),
            5 => damage::length(g, &mut e2),
            6 => damage::length(g, &mut coins),
            7 => room = damage::room(g, fixed.reply_bytes()),
            8 => key_room = damage::room(g, fixed.key_bytes),
            9 => damage::public(g, &mut a, q),
            10 => damage::secret(g, &mut s1, largest),
            11 => damage::secret(g, &mut e1, largest),
            12 => damage::secret(g, &mut e2, largest),
            13 => digest_room = damage::room(g, 32),
            14 | 15 => damage::zero(g, &mut s1, &mut e1),
            16 | 17 => damage::blank(g, &mut opening, packed(fixed, start(fixed))),
            _ => damage::message(g, &mut opening),
        }
    }

    let (lopening, la) = (Lent::new(&opening, 7), Lent::new(&a, 7));
    let (ls1, le1) = (Lent::new(&s1, 7), Lent::new(&e1, 7));
    let (le2, lcoins) = (Lent::new(&e2, 7), Lent::new(&coins, 7));
    let (mut expected, mut expected_key) = (g.bytes(room), g.bytes(key_room));
    let mut expected_digest = g.bytes(digest_room);
    let mut message = Lent::new(&expected, 9);
    let mut key = Lent::new(&expected_key, 9);
    let mut digest = Lent::new(&expected_digest, 9);
    let told = same(
        crate::calls::reply(
            scheme,
            lopening.entries(),
            la.entries(),
            ls1.entries(),
            le1.entries(),
            le2.entries(),
            lcoins.entries(),
            message.entries_mut(),
            key.entries_mut(),
            digest.entries_mut(),
        ),
        second::calls::reply(
            scheme.into(),
            &opening,
            &a,
            &s1,
            &e1,
            &e2,
            &coins,
            &mut expected,
            &mut expected_key,
            &mut expected_digest,
        ),
    );
    message.holds(&expected);
    key.holds(&expected_key);
    digest.holds(&expected_digest);
    lopening.holds(&opening);
    la.holds(&a);
    ls1.holds(&s1);
    le1.holds(&e1);
    le2.holds(&e2);
    lcoins.holds(&coins);
    told
}

fn finish(g: &mut Generator, ready: &Ready) -> u32 {
    let fixed = ready.inputs.scheme;
    let (mut scheme, mut room) = (number(fixed), fixed.key_bytes + 3);
    let mut digest_room = 32 + 3;
    let (mut reply, mut s) = (ready.reply.clone(), ready.inputs.s.clone());
    for _ in 0..damages(g, fixed) {
        match g.below(10) {
            0 => scheme = damage::scheme(g),
            1 => damage::length(g, &mut reply),
            2 => damage::length(g, &mut s),
            3 => room = damage::room(g, fixed.key_bytes),
            4 => damage::secret(g, &mut s, fixed.largest_noise as i32),
            5 => digest_room = damage::room(g, 32),
            6 | 7 => damage::blank(g, &mut reply, packed(fixed, 0)),
            _ => damage::message(g, &mut reply),
        }
    }

    let (lreply, ls) = (Lent::new(&reply, 7), Lent::new(&s, 7));
    let (mut expected, mut expected_digest) = (g.bytes(room), g.bytes(digest_room));
    let mut key = Lent::new(&expected, 9);
    let mut digest = Lent::new(&expected_digest, 9);
    let answer = crate::calls::finish(
        scheme,
        lreply.entries(),
        ls.entries(),
        key.entries_mut(),
        digest.entries_mut(),
    );
    let expects = second::calls::finish(
        scheme.into(),
        &reply,
        &s,
        &mut expected,
        &mut expected_digest,
    );
    let told = same(
        answer.map(|(k, d, slack)| (k, d, slack.largest, slack.index)),
        expects.map(|(k, d, slack)| (k, d, slack.largest, slack.index)),
    );
    key.holds(&expected);
    digest.holds(&expected_digest);
    lreply.holds(&reply);
    ls.holds(&s);
    told
}

fn noise(g: &mut Generator, ready: &Ready) -> u32 {
    let fixed = ready.inputs.scheme;
    let lengths = second::noise::lengths(fixed);
    let length = lengths[g.below(lengths.len() as u64) as usize];
    let each = second::noise::bytes_a_value(fixed);
    let (mut scheme, mut room) = (number(fixed), length / each + 3);
    let mut bytes = g.bytes(length);
    let mut table = match fixed.family {
        Family::Bcns => second::table::table(),
        Family::NewHope | Family::Frodo => vec![],
    };
    for _ in 0..g.below(3) {
        match g.below(5) {
            0 => scheme = damage::scheme(g),
            1 => damage::length(g, &mut bytes),
            2 => damage::length(g, &mut table),
            3 => damage::table(g, &mut table),
            _ => room = damage::room(g, length / each),
        }
    }

    let (lbytes, ltable) = (Lent::new(&bytes, 7), Lent::new(&table, 7));
    let mut expected: Vec<i32> = (0..room).map(|_| g.next() as i32).collect();
    let mut out = Lent::new(&expected, 9);
    let told = same(
        wimmostry::raw::noise(
            scheme,
            lbytes.entries(),
            ltable.entries(),
            out.entries_mut(),
        ),
        second::calls::noise(scheme.into(), &bytes, &table, &mut expected),
    );
    out.holds(&expected);
    lbytes.holds(&bytes);
    ltable.holds(&table);
    told
}

/// Streams around the length that 1,024 numbers take by either rule, and the
/// longest.
fn expand(g: &mut Generator) -> u32 {
    let (mut rule, around) = match g.below(2) {
        0 => (14, 2600),
        _ => (16, 2050),
    };
    if g.below(8) == 0 {
        rule = damage::rule(g);
    }
    let length = match g.below(8) {
        0 => g.below(100),
        1 => 65534 + g.below(4),
        _ => around + g.below(300),
    };
    let mut stream = g.bytes(length as usize);
    if g.below(8) == 0 {
        stream.fill(0xFF);
    }
    let room = damage::room(g, 1024);

    let lstream = Lent::new(&stream, 7);
    let mut expected: Vec<u32> = (0..room).map(|_| g.next() as u32).collect();
    let mut out = Lent::new(&expected, 9);
    let told = same(
        wimmostry::raw::expand(rule, lstream.entries(), out.entries_mut()),
        second::calls::expand(rule, &stream, &mut expected),
    );
    out.holds(&expected);
    lstream.holds(&stream);
    told
}

fn grow(g: &mut Generator) -> u32 {
    let mut rule = 14 + 2 * g.below(2) as u32;
    let (mut seed, mut room) = (g.bytes(32), 1024 + 3);
    match g.below(5) {
        0 => rule = damage::rule(g),
        1 => damage::length(g, &mut seed),
        2 => room = damage::room(g, 1024),
        _ => {}
    }

    let lseed = Lent::new(&seed, 7);
    let mut expected: Vec<u32> = (0..room).map(|_| g.next() as u32).collect();
    let mut out = Lent::new(&expected, 9);
    let told = same(
        wimmostry::raw::grow(rule, lseed.entries(), out.entries_mut()),
        second::calls::grow(rule, &seed, &mut expected),
    );
    out.holds(&expected);
    lseed.holds(&seed);
    told
}

/// Inputs of some blocks, the longest, and one byte more.
fn hashed(g: &mut Generator) -> Vec<u8> {
    let length = match g.below(8) {
        0 => 65536,
        1 => 65537,
        _ => g.below(700),
    };
    g.bytes(length as usize)
}

fn shake128(g: &mut Generator) -> u32 {
    let (input, room) = (hashed(g), g.below(700) as usize);
    let linput = Lent::new(&input, 7);
    let mut expected = g.bytes(room);
    let mut out = Lent::new(&expected, 9);
    let told = same(
        wimmostry::raw::shake128(linput.entries(), out.entries_mut()),
        second::calls::shake128(&input, &mut expected),
    );
    out.holds(&expected);
    linput.holds(&input);
    told
}

fn sha3_256(g: &mut Generator) -> u32 {
    let (input, room) = (hashed(g), damage::room(g, 32));
    let linput = Lent::new(&input, 7);
    let mut expected = g.bytes(room);
    let mut out = Lent::new(&expected, 9);
    let told = same(
        wimmostry::raw::sha3_256(linput.entries(), out.entries_mut()),
        second::calls::sha3_256(&input, &mut expected),
    );
    out.holds(&expected);
    linput.holds(&input);
    told
}

fn bench(g: &mut Generator, ready: &Ready) -> u32 {
    let (i, fixed) = (&ready.inputs, ready.inputs.scheme);
    let (q, largest) = (fixed.q as u32, fixed.largest_noise as i32);
    let mut scheme = number(fixed);
    let (mut a, mut s, mut e) = (i.a.clone(), i.s.clone(), i.e.clone());
    let (mut s1, mut e1, mut e2) = (i.s1.clone(), i.e1.clone(), i.e2.clone());
    let (mut seed, mut coins) = (i.seed.clone(), i.coins.clone());
    for _ in 0..damages(g, fixed) {
        match g.below(17) {
            0 => scheme = damage::scheme(g),
            1 => damage::length(g, &mut a),
            2 => damage::length(g, &mut s),
            3 => damage::length(g, &mut e),
            4 => damage::length(g, &mut seed),
            5 => damage::length(g, &mut s1),
            6 => damage::length(g, &mut e1),
            7 => damage::length(g, &mut e2),
            8 => damage::length(g, &mut coins),
            9 => damage::public(g, &mut a, q),
            10 => damage::secret(g, &mut s, largest),
            11 => damage::secret(g, &mut e, largest),
            12 => damage::secret(g, &mut s1, largest),
            13 => damage::secret(g, &mut e1, largest),
            14 => damage::zero(g, &mut s, &mut e),
            15 => damage::zero(g, &mut s1, &mut e1),
            _ => damage::secret(g, &mut e2, largest),
        }
    }

    let (la, ls, le) = (Lent::new(&a, 7), Lent::new(&s, 7), Lent::new(&e, 7));
    let (ls1, le1) = (Lent::new(&s1, 7), Lent::new(&e1, 7));
    let (le2, lseed) = (Lent::new(&e2, 7), Lent::new(&seed, 7));
    let lcoins = Lent::new(&coins, 7);
    let answer = wimmostry::raw::bench(
        scheme,
        la.entries(),
        ls.entries(),
        le.entries(),
        lseed.entries(),
        ls1.entries(),
        le1.entries(),
        le2.entries(),
        lcoins.entries(),
    );
    let expected = second::calls::bench(scheme.into(), &a, &s, &e, &seed, &s1, &e1, &e2, &coins);
    if scheme == 0 {
        // a type without the differing case, and the answer of `bench`
        let typed = wimmostry::raw::bench_bcns(
            la.entries(),
            ls.entries(),
            le.entries(),
            lseed.entries(),
            ls1.entries(),
            le1.entries(),
            le2.entries(),
            lcoins.entries(),
        );
        let typed = typed.map(|(BcnsBench::Agree, slack)| (Bench::Agree, slack));
        assert_eq!(typed, answer);
    }
    let told = same(
        answer.map(|(found, slack)| (differing(found), slack.largest, slack.index)),
        expected.map(|(found, slack)| (second_differing(found), slack.largest, slack.index)),
    );
    la.holds(&a);
    ls.holds(&s);
    le.holds(&e);
    lseed.holds(&seed);
    ls1.holds(&s1);
    le1.holds(&e1);
    le2.holds(&e2);
    lcoins.holds(&coins);
    told
}

fn differing(found: Bench) -> Option<usize> {
    match found {
        Bench::Agree => None,
        Bench::Differ(bit) => Some(bit),
    }
}

fn second_differing(found: second::calls::Bench) -> Option<usize> {
    match found {
        second::calls::Bench::Agree => None,
        second::calls::Bench::Differ(bit) => Some(bit),
    }
}

/// The calls by name, with every refusal that each can give, and 0; but no seed
/// is known that Grow refuses with 7.
const EACH: [(&str, &[u32]); 9] = [
    ("offer", &[0, 1, 2, 3, 4, 6, 17]),
    ("reply", &[0, 1, 2, 3, 4, 5, 6, 17]),
    ("finish", &[0, 1, 2, 3, 5, 6, 17]),
    ("noise", &[0, 1, 2, 3, 18]),
    ("bench", &[0, 1, 2, 4, 6, 17]),
    ("expand", &[0, 2, 3, 7, 12]),
    ("grow", &[0, 2, 3, 12]),
    ("shake128", &[0, 2]),
    ("sha3_256", &[0, 2, 3]),
];

fn held(calls: u64) {
    let ready = ready();
    let mut seen = BTreeSet::new();
    for call in 0..calls {
        let g = &mut Generator::new(1000 + call);
        let ready = &ready[g.below(ready.len() as u64) as usize];
        let which = g.below(9) as usize;
        let told = match which {
            0 => offer(g, ready),
            1 => reply(g, ready),
            2 => finish(g, ready),
            3 => noise(g, ready),
            4 => bench(g, ready),
            5 => expand(g),
            6 => grow(g),
            7 => shake128(g),
            _ => sha3_256(g),
        };
        seen.insert((EACH[which].0, told));
    }
    let each =
        |&(name, told): &(_, &[u32])| told.iter().map(move |&n| (name, n)).collect::<Vec<_>>();
    assert_eq!(seen, EACH.iter().flat_map(each).collect());
}

#[test]
fn some_calls() {
    held(750);
}

#[test]
#[ignore = "takes minutes"]
fn many_calls() {
    held(100_000);
}
