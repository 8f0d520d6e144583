//! Both ends from random bytes: they agree, and each refusal comes in its place.

use crate::calls::{self, answer_bytes, lent_public, open_bytes};
use crate::generator::Generator;
use crate::inputs::numbers;
use second::noise::table_words;
use second::refusal::{refusal, Refusal};
use second::schemes::{Scheme, NEWHOPE, SIX};
use second::table::table;

struct Lent {
    number: u64,
    rule: u32,
    a: Vec<u32>,
    table: Vec<u64>,
    open: Vec<u8>,
    answer: Vec<u8>,
    rooms: [usize; 5],
}

impl Lent {
    fn new(scheme: &Scheme) -> Lent {
        let mut g = Generator::new(70 + scheme.number);
        Lent {
            number: scheme.number,
            rule: 14,
            a: numbers(&mut g, lent_public(scheme), scheme.q),
            table: table()[..table_words(scheme)].to_vec(),
            open: g.bytes(open_bytes(scheme)),
            answer: g.bytes(answer_bytes(scheme)),
            rooms: [
                scheme.opening_bytes(),
                scheme.secret_count(),
                scheme.reply_bytes(),
                scheme.key_bytes,
                32,
            ],
        }
    }

    fn open(&self) -> Result<(Vec<u8>, Vec<i32>), Refusal> {
        let (mut opening, mut s) = (vec![9; self.rooms[0]], vec![9; self.rooms[1]]);
        let told = calls::open(
            self.number,
            self.rule,
            &self.a,
            &self.table,
            &self.open,
            &mut opening,
            &mut s,
        );
        if told.is_err() {
            assert!(opening.iter().all(|&x| x == 0) && s.iter().all(|&x| x == 0));
        }
        told.map(|_| (opening, s))
    }

    fn answer(&self, opening: &[u8]) -> Result<[Vec<u8>; 3], Refusal> {
        let [.., reply, key, digest] = self.rooms;
        let mut out = [reply, key, digest].map(|room| vec![9; room]);
        let [reply, key, digest] = &mut out;
        let told = calls::answer(
            self.number,
            self.rule,
            opening,
            &self.a,
            &self.table,
            &self.answer,
            reply,
            key,
            digest,
        );
        if told.is_err() {
            assert!(out.iter().flatten().all(|&x| x == 0));
        }
        told.map(|_| out)
    }
}

#[test]
fn both_ends_agree() {
    for scheme in &SIX {
        let lent = Lent::new(scheme);
        let (opening, s) = lent.open().unwrap();
        let [reply, key, digest] = lent.answer(&opening).unwrap();
        let (mut peer, mut peer_digest) = (vec![0; scheme.key_bytes], [0; 32]);
        calls::finish(scheme.number, &reply, &s, &mut peer, &mut peer_digest).unwrap();
        assert_eq!((peer, &peer_digest[..]), (key, &digest[..]));
    }
}

/// What is wrong in the order of the refusals: each is put right in turn.
#[test]
fn in_order() {
    for scheme in &SIX {
        let good = Lent::new(scheme);
        let mut lent = Lent::new(scheme);
        let (opening, _) = good.open().unwrap();
        lent.number = 6;
        lent.rule = 15;
        lent.open.push(0);
        lent.answer.push(0);
        lent.rooms = lent.rooms.map(|room| room - 1);
        lent.table.reverse();
        lent.a.iter_mut().for_each(|number| *number = u32::MAX);
        let mut blank = vec![0; opening.len()];
        blank[opening.len() - scheme.seed_bytes()..].fill(1);

        let both = |lent: &Lent, number: u32| {
            for told in [lent.open().err(), lent.answer(&blank).err()] {
                assert_eq!(told.map(|x| x.number), Some(number), "{}", scheme.name);
            }
        };
        both(&lent, 1);
        lent.number = scheme.number;
        both(&lent, 12);
        lent.rule = 16;
        both(&lent, 2);
        (lent.open, lent.answer) = (good.open.clone(), good.answer.clone());
        both(&lent, 3);
        lent.rooms = good.rooms;
        if scheme.number == 0 {
            both(&lent, 18);
            lent.table = good.table.clone();
        }
        if scheme.number != NEWHOPE.number {
            both(&lent, 4);
            lent.a = good.a.clone();
        }
        let packed = opening.len() - scheme.seed_bytes();
        let start = if scheme.number < 2 {
            0
        } else {
            scheme.seed_bytes()
        };
        blank.fill(0);
        blank[..start].fill(1);
        assert_eq!(lent.answer(&blank).err(), Some(refusal(17, 0)), "{packed}");
        lent.open[scheme.seed_bytes()..].fill(0);
        lent.answer.fill(0);
        assert_eq!(lent.open().err(), Some(refusal(17, 0)));
        assert_eq!(lent.answer(&opening).err(), Some(refusal(17, 0)));
    }
}
