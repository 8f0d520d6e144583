//! The calls from random bytes, plain and on a session, held to the second program on
//! random inputs and on damaged ones: the answer, every output from end to end, the
//! session, and the guards around every buffer. The typed ends give the same bytes.

use crate::damage;
use crate::generator::Generator;
use crate::inputs::numbers;
use crate::lent::Lent;
use second::calls::{answer_bytes, lent_public, open_bytes};
use second::noise::table_words;
use second::schemes::{Family, Scheme, SIX};
use second::table::table;
use std::collections::BTreeSet;
use std::fmt::Debug;
use wimmostry::fixed::{self, Fixed};
use wimmostry::{raw, Initiator, Refusal, Replier, Rule, Session, Stage, SESSION};

/// What both calls are lent in a scheme.
#[derive(Clone)]
struct Inputs {
    scheme: u32,
    rule: u32,
    a: Vec<u32>,
    table: Vec<u64>,
    open: Vec<u8>,
    answer: Vec<u8>,
    opening: Vec<u8>,
}

impl Inputs {
    fn random(fixed: &Scheme, g: &mut Generator) -> Inputs {
        let mut inputs = Inputs {
            scheme: fixed.number as u32,
            rule: if g.below(2) == 0 { 14 } else { 16 },
            a: numbers(g, lent_public(fixed), fixed.q),
            table: table()[..table_words(fixed)].to_vec(),
            open: g.bytes(open_bytes(fixed)),
            answer: g.bytes(answer_bytes(fixed)),
            opening: vec![0; fixed.opening_bytes()],
        };
        let i = &mut inputs;
        let mut s = vec![0; fixed.secret_count()];
        let given = (&i.a, &i.table, &i.open);
        second::calls::open(
            fixed.number,
            i.rule,
            given.0,
            given.1,
            given.2,
            &mut i.opening,
            &mut s,
        )
        .expect("good inputs");
        inputs
    }

    fn damage(&mut self, g: &mut Generator, q: u32) {
        match g.below(11) {
            0 => self.scheme = damage::scheme(g),
            1 => self.rule = damage::rule(g),
            2 => damage::length(g, &mut self.a),
            3 => damage::length(g, &mut self.table),
            4 => damage::length(g, &mut self.open),
            5 => damage::length(g, &mut self.answer),
            6 => damage::length(g, &mut self.opening),
            7 => damage::table(g, &mut self.table),
            8 => damage::public(g, &mut self.a, q),
            _ => damage::message(g, &mut self.opening),
        }
    }
}

/// The refusal's number, 0 for none.
fn same<T: Debug + PartialEq>(
    answer: Result<T, Refusal>,
    expected: Result<T, second::refusal::Refusal>,
) -> u32 {
    let answer = answer.map_err(|r| (r.number(), r.place()));
    assert_eq!(answer, expected.map_err(|r| (r.number, r.place)));
    answer.map_or_else(|(number, _)| number, |_| 0)
}

/// A session: idle, or one that takes no open.
fn session(g: &mut Generator) -> Vec<u8> {
    let mut bytes = vec![0; SESSION];
    match g.below(6) {
        0 => bytes[0] = 1 + g.below(2) as u8,
        1 => bytes[129] = 1,
        2 => bytes.truncate(129),
        _ => {}
    }
    bytes
}

fn open(g: &mut Generator, fixed: &Scheme, i: &Inputs) -> [u32; 2] {
    let mut rooms = [fixed.opening_bytes() + 3, fixed.secret_count() + 3];
    if g.below(4) == 0 {
        rooms[0] = damage::room(g, fixed.opening_bytes());
    }
    if g.below(4) == 0 {
        rooms[1] = damage::room(g, fixed.secret_count());
    }
    let (la, ltable) = (Lent::new(&i.a, 7), Lent::new(&i.table, 7));
    let lrandom = Lent::new(&i.open, 7);
    let given = (la.entries(), ltable.entries(), lrandom.entries());
    [false, true].map(|on_session| {
        let (mut opening, mut s) = (g.bytes(rooms[0]), vec![5; rooms[1]]);
        let (mut own_opening, mut own_s) = (Lent::new(&opening, 9), Lent::new(&s, 9));
        let mut bytes = session(g);
        let mut own = Lent::new(&bytes, 9);
        let (out, values) = (own_opening.entries_mut(), own_s.entries_mut());
        let answer = if on_session {
            raw::session::open(
                own.entries_mut(),
                i.scheme,
                i.rule,
                given.0,
                given.1,
                given.2,
                out,
                values,
            )
        } else {
            raw::open(i.scheme, i.rule, given.0, given.1, given.2, out, values)
        };
        let number = i.scheme.into();
        let expected = if on_session {
            second::session::open(
                &mut bytes,
                number,
                i.rule,
                &i.a,
                &i.table,
                &i.open,
                &mut opening,
                &mut s,
            )
        } else {
            second::calls::open(
                number,
                i.rule,
                &i.a,
                &i.table,
                &i.open,
                &mut opening,
                &mut s,
            )
        };
        let told = same(answer.map(|n| (n.opening, n.s)), expected);
        own_opening.holds(&opening);
        own_s.holds(&s);
        own.holds(&bytes);
        la.holds(&i.a);
        ltable.holds(&i.table);
        lrandom.holds(&i.open);
        told
    })
}

fn answer(g: &mut Generator, fixed: &Scheme, i: &Inputs) -> [u32; 2] {
    let mut rooms = [fixed.reply_bytes() + 3, fixed.key_bytes + 3, 32 + 3];
    for (room, least) in rooms
        .iter_mut()
        .zip([fixed.reply_bytes(), fixed.key_bytes, 32])
    {
        if g.below(6) == 0 {
            *room = damage::room(g, least);
        }
    }
    let (lopening, la) = (Lent::new(&i.opening, 7), Lent::new(&i.a, 7));
    let (ltable, lrandom) = (Lent::new(&i.table, 7), Lent::new(&i.answer, 7));
    let given = (
        lopening.entries(),
        la.entries(),
        ltable.entries(),
        lrandom.entries(),
    );
    [false, true].map(|on_session| {
        let mut expected = rooms.map(|room| g.bytes(room));
        let mut outputs = expected.clone().map(|bytes| Lent::new(&bytes, 9));
        let mut bytes = session(g);
        let mut own = Lent::new(&bytes, 9);
        let [message, key, digest] = outputs.each_mut().map(|out| out.entries_mut());
        let answer = if on_session {
            raw::session::answer(
                own.entries_mut(),
                i.scheme,
                i.rule,
                given.0,
                given.1,
                given.2,
                given.3,
                message,
                key,
                digest,
            )
        } else {
            raw::answer(
                i.scheme, i.rule, given.0, given.1, given.2, given.3, message, key, digest,
            )
        };
        let number = i.scheme.into();
        let [message, key, digest] = expected.each_mut().map(|out| &mut out[..]);
        let second = if on_session {
            second::session::answer(
                &mut bytes, number, i.rule, &i.opening, &i.a, &i.table, &i.answer, message, key,
                digest,
            )
        } else {
            second::calls::answer(
                number, i.rule, &i.opening, &i.a, &i.table, &i.answer, message, key, digest,
            )
        };
        let told = same(answer.map(|n| (n.message, n.key, n.digest)), second);
        for (output, expected) in outputs.iter().zip(&expected) {
            output.holds(expected);
        }
        own.holds(&bytes);
        lopening.holds(&i.opening);
        la.holds(&i.a);
        ltable.holds(&i.table);
        lrandom.holds(&i.answer);
        told
    })
}

#[test]
fn held() {
    let mut g = Generator::new(91);
    let mut told = BTreeSet::new();
    for fixed in &SIX {
        let good = Inputs::random(fixed, &mut g);
        let rounds = if fixed.family == Family::Frodo {
            16
        } else {
            80
        };
        for round in 0..rounds {
            let mut i = good.clone();
            for _ in 0..(round % 8).min(3) {
                i.damage(&mut g, fixed.q as u32);
            }
            told.extend(open(&mut g, fixed, &i));
            told.extend(answer(&mut g, fixed, &i));
        }
    }
    for number in [0, 1, 2, 3, 4, 5, 10, 12, 18] {
        assert!(told.contains(&number), "{number} was never given");
    }
    assert!(!told.contains(&6), "6 cannot arise");
}

/// A blank opening that came is 17; random bytes that make only zeros are 17 too.
#[test]
fn blanks() {
    for fixed in &SIX {
        let mut i = Inputs::random(fixed, &mut Generator::new(92));
        let (mut opening, mut s) = (
            vec![9; fixed.opening_bytes()],
            vec![9; fixed.secret_count()],
        );
        let (mut reply, mut key) = (vec![9; fixed.reply_bytes()], vec![9; fixed.key_bytes]);
        let mut digest = [9; 32];
        i.open[fixed.seed_bytes()..].fill(0);
        let refused = raw::open(
            i.scheme,
            i.rule,
            &i.a,
            &i.table,
            &i.open,
            &mut opening,
            &mut s,
        );
        assert_eq!(refused, Err(Refusal::Blank));
        assert!(opening.iter().all(|&byte| byte == 0) && s.iter().all(|&value| value == 0));
        let mut answer = |i: &Inputs| {
            raw::answer(
                i.scheme,
                i.rule,
                &i.opening,
                &i.a,
                &i.table,
                &i.answer,
                &mut reply,
                &mut key,
                &mut digest,
            )
        };
        let mut zeros = i.clone();
        zeros.answer.fill(0);
        assert_eq!(answer(&zeros), Err(Refusal::Blank));
        i.opening.fill(0);
        assert_eq!(answer(&i), Err(Refusal::Blank));
    }
}

/// The typed ends on random bytes, plain and on sessions: the same as the raw calls, and
/// nothing left in a buffer whose owner is done with it.
fn typed<X: Fixed>(
    fixed: &'static Scheme,
    s: &mut X::S,
    mut opening: X::Opening,
    reply: &mut X::Reply,
    key: &mut X::Key,
) where
    X::S: Debug,
{
    let i = Inputs::random(fixed, &mut Generator::new(93));
    let rule = if i.rule == 14 {
        Rule::LowBits
    } else {
        Rule::WholeWord
    };
    let seed = &i.open[..fixed.seed_bytes()];
    let public = |given: &[u8]| {
        assert_eq!(given, seed, "the seed comes first");
        &i.a[..]
    };
    let (open, draw) = (
        |out: &mut [u8]| out.copy_from_slice(&i.open),
        |out: &mut [u8]| out.copy_from_slice(&i.answer),
    );
    let (mut left, mut right) = ([0; SESSION], [0; SESSION]);
    let mut peer_key = vec![0; fixed.key_bytes];

    let initiator = Initiator::open::<X>(rule, public, open, s, &mut opening).expect("good");
    assert_eq!(opening.as_ref(), i.opening);
    let replied = Replier::answer::<X>(rule, &opening, &i.a, draw, reply, key).expect("good");
    let finished = initiator
        .finish(replied.message, &mut peer_key)
        .expect("good");
    assert_eq!(finished.digest, replied.digest);
    assert_eq!(finished.key.bytes(), replied.key.bytes());
    let (message, digest) = (replied.message.to_vec(), replied.digest);
    drop((finished, replied));
    assert!(
        s.as_mut().iter().all(|&value| value == 0),
        "s is wiped by finish"
    );
    assert!(
        key.as_mut().iter().all(|&byte| byte == 0),
        "the key is wiped"
    );

    let (mut one, mut other) = (Session::new(&mut left), Session::new(&mut right));
    let initiator = one
        .open::<X>(rule, public, open, s, &mut opening)
        .expect("good");
    assert_eq!(one.stage(), Some(Stage::Offered(X::SCHEME)));
    let answered = other
        .answer::<X>(rule, &opening, &i.a, draw, reply)
        .expect("good");
    assert_eq!((answered.message, answered.digest), (&message[..], digest));
    let again = other.answer::<X>(rule, &opening, &i.a, draw, reply);
    assert_eq!(again.err(), Some(Refusal::OutOfStage));
    let linked = one.finish(initiator, &message).expect("good");
    assert_eq!(linked.digest, digest);
    assert_eq!(one.key(), other.key());
}

#[test]
fn typed_ends() {
    typed::<fixed::Bcns>(
        &SIX[0],
        &mut [0; 1024],
        [0; 4096],
        &mut [0; 4224],
        &mut [0; 128],
    );
    typed::<fixed::NewHope>(
        &SIX[1],
        &mut [0; 1024],
        [0; 1824],
        &mut [0; 2048],
        &mut [0; 32],
    );
    typed::<fixed::FrodoChallenge>(
        &SIX[2],
        &mut [0; 2816],
        [0; 3888],
        &mut [0; 3880],
        &mut [0; 8],
    );
    typed::<fixed::FrodoClassical>(
        &SIX[3],
        &mut [0; 4736],
        [0; 7120],
        &mut [0; 7112],
        &mut [0; 16],
    );
    typed::<fixed::FrodoRecommended>(
        &SIX[4],
        &mut [0; 6016],
        [0; 11296],
        &mut [0; 11288],
        &mut [0; 32],
    );
    typed::<fixed::FrodoParanoid>(
        &SIX[5],
        &mut [0; 6912],
        [0; 12976],
        &mut [0; 12968],
        &mut [0; 32],
    );
}
